"""A worksheet of `tmhost` in the browser: the server of the page."""
