"""The parts of collector/collect: one page, or many, as snapshots with headless Chromium."""
