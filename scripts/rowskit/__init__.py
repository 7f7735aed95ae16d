"""Regenerates the files of crates/command_tests/data from the texts of crates/command_tests/sources."""
