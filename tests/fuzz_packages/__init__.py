"""Changes packages at random, with knowledge of their structure, and gives them to `abi-packages`."""
