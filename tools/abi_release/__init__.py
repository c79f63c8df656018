"""Judges a whole release: the packages of two folders, pair by pair, on the workers of a Dask cluster.

Nothing here judges a library: `abi` does. Dask provides the scheduler, the queues and the protocol.
"""
