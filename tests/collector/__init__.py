"""Tests of the collector and the view, with a real Chromium."""
