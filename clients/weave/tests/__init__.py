"""Tests of tmhost-weave."""
