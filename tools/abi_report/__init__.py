"""Reports on two libraries for people, made from the documents of `abi-json`.

`runs` starts `abi-json`, and `documents` reads what it prints. `entries`, `c_names` and `records` read more from the debug information:
names as C writes them, members, and lines of the source. `changes`, `subjects` and `blocks` group what belongs to one changed type,
`causes` finds what made it change, and `ways` finds how exports reach it. `texts` and `pages` show the report.
"""
