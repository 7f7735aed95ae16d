"""The stored sets and runs of docs/CLAIMS.md, what refuted claims would give for them, and the names that the page cites."""
