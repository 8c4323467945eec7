"""Serves the desk over HTTP, and says in words where it listens and what is wrong."""
