"""Speaks to a desk over HTTP, behind its proxy or without one."""
