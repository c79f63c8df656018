"""Makes the manual pages of `abi` and `abi-json`, their bash completions and the usage text from one source, `commands.toml`. The manual
pages of the tools in Python also come from what these print with --help."""
