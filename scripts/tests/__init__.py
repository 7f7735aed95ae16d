"""Tests of what scripts compute, with values by hand or from the pages; scripts/test-kits runs them."""
