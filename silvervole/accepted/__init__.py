"""Findings that a team accepted for a while: they fail no pipeline, and stay what they are."""
