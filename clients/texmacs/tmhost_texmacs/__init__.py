"""Worksheets of tmhost in GNU TeXmacs."""
