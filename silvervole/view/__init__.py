"""The parts of collector/view: a report's findings as one HTML file for people."""
