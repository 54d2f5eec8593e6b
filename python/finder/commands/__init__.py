"""The shell command `finder`, which `python -m finder` is too: one module a word, and `dispatch`, which calls them.

A module of a word has `DESCRIPTION` and `EXAMPLES`, texts of its help, `add_words`, which adds its options to a parser,
and `run`, which returns what is printed. `dispatch.WORDS` names the module, and says in a line what the word does.
"""
