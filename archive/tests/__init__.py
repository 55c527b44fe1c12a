"""Tests of the archive's modules that need no program and no server: `python3 -m unittest discover -s archive/tests -t archive`."""
