"""What several scripts need: calls of `crpd`, ELF files and their instructions, and TOML."""
