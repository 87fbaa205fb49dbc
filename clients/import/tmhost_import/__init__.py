"""New worksheets of tmhost from notebooks, Org files and texts with fences."""
