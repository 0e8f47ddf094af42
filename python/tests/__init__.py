"""Tests that need no built program: `python -m unittest` or `pytest`, in the folder `python`."""
