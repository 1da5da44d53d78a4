"""What the tools beside `shim` share: sources, runs, reports and journals, in Python's standard library alone.

Nothing here is proved, and nothing of the program stands on it. `tools/tests/runs.py` holds it against the program."""
