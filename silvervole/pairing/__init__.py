"""Pairs the nodes of two snapshots of a page: which element of the later one is which of the earlier."""
