"""The calls that tests/calls.py runs, by what they show."""
