"""The history of a library: its versions in order, judged against one another.

Nothing here judges: `abi check` does, and `abi compose` joins the certificates of steps.
"""
