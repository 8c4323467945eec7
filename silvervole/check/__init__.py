"""Checks pages: collects them, audits them, and tells what was found."""
