"""The parts of scripts/evaluate: measurements through the command `crpd`, a recomputation of
windows that shares nothing with it, and the page that is made from the numbers."""
