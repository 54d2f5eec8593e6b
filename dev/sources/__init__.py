"""Reads the Rattle sources of this repository, for all tools that look at them: nothing is proved or built.

`repository` reads `crates.txt` and finds files, `code` reads the functions and contracts of `.rt` files, `definitions`
reads `.antt` files, `planting` reads edits and makes them, and `command` has what all commands of `dev/` share.

    >>> from dev.sources.repository import Repository
    >>> house = Repository()
    >>> house.crates["gf_query"].layer.name
    'judging'
"""
