"""Generates files that are meant to take `abi` much time or memory, and measures the runs."""
