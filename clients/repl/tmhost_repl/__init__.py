"""A worksheet of tmhost at a terminal, or in a pipe."""
