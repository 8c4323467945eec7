"""What the package knows of the rules."""
