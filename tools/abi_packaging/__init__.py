"""Makes packages of an installation of `abi`."""
