"""Test suites of interpreters that are texts: code in fences, and what is wanted after each."""
