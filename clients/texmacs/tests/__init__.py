"""Tests of tmhost-texmacs."""
