"""Silvervole's commands around the desk: pages are collected, audited, compared, and their findings told to people."""

__version__ = "0.1"
