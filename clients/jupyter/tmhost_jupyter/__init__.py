"""A kernel of Jupyter whose cells are fields of a worksheet."""
