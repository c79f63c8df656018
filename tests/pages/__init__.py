"""Runs the commands of the pages word by word."""
