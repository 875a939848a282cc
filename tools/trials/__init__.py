"""Tests of from_apitrace.py, by what they look at: ../test_from_apitrace.py runs them all."""
