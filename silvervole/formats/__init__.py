"""One list of findings, and the formats in which people and pipelines read it."""
