"""Tests of tmhost-import: python3 -B -m unittest discover -s clients/import/tests -t clients/import"""
import os
import sys

CLIENTS = os.path.join(os.path.dirname(os.path.realpath(__file__)), "..", "..")
sys.path[:0] = [CLIENTS, *(os.path.join(CLIENTS, name) for name in ("fences", "python"))]
