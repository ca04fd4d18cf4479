"""Tests of the tools. In `tools/`: `python3 -m unittest tests.leaks_test`."""
