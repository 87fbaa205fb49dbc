"""Tests of tmhost_fences: python3 -B -m unittest discover -s clients/fences/tests -t clients/fences"""
import os
import sys

CLIENTS = os.path.join(os.path.dirname(os.path.realpath(__file__)), "..", "..")
sys.path[:0] = [CLIENTS, os.path.join(CLIENTS, "python")]
