"""Reads the libraries of a distribution that have debug packages in its main archive, and compares what `abi` reads with what abidw
reads.

usage: python3 -m packages_read FOLDER [DEBUG_PACKAGE..]     in the folder tests/, with the program `abi` in the variable ABI

Downloads missing packages to FOLDER by apt-get, joins each library with its debug information as `tools/join-debug` does, and prints a
line for each package in Markdown. It needs the network and abidw, so it is not part of the gate.
"""
