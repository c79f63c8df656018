"""Shared objects that are written byte by byte from rows of text, and what the proved programs must say of them."""
