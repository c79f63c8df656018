"""Libraries, rule files and certificates with random changes, and what `abi` may answer to them."""
