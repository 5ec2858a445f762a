"""The makers of lemmas, by what their tables are about."""
