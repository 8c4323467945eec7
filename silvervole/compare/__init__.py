"""Compares two audits: what is new, what is mended, and what stays."""
