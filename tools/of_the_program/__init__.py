"""Tests of the program that no page shows; tools/program.py runs them."""
