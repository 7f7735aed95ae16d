"""Programs with which the bounds of scripts/loops are tried: a motor drive, and random ones."""
