"""Inputs as large and as awkward as the limits allow."""
