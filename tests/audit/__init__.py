"""Makes the pages of docs/evidence/ that are read off the sources."""
