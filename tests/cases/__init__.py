"""The cases of tests/run."""
