"""Sends a page's next version to the desk, so that what people judged of it goes on counting."""
