"""Texts whose code is evaluated, over a worksheet of tmhost that keeps the answers."""
