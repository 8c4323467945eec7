"""The settings of check: the file silvervole.toml, read and written."""
