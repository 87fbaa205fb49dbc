"""Tests of tmhost-repl: clients/repl/test"""
