"""Takes judgements that people made in another tool, or at another desk, from EARL, and gives them to the desk."""
