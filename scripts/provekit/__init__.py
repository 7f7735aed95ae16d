"""Proves and builds the program by the module of the Rattle kit."""
