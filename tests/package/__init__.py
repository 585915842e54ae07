"""Tests of the Python package, which `tests/python.py` runs. The expected values are examples of the standards, or computed by Python."""
