"""Tries test cases of ACT rules: collects their pages, has the desk judge them, and says how it fares."""
