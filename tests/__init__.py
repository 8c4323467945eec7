"""Tests by pytest: of the package, in collector/ of what needs a real Chromium, and in team/ of what stands around the desk."""
