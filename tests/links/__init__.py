"""Whether the links of the pages lead somewhere, and whether docs/INDEX.md is up to date: tests/links.sh says how it is called."""
