"""The tools around the program `abi`: they turn files as distributions ship them into files that it can read.

Nothing here judges a library. `abi` does, and the tools show its answer.
"""

# The release of which the tools are a part (CHANGELOG.md).
VERSION = "0.2.0"
