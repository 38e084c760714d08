"""The tests of the repository. docs/TESTING.md has a table of the folders, by what they test.

A script puts the top of the repository on its path, then imports `from tests.support import
packets`; modules import each other the same way. `python3 -B` leaves no bytecode beside the
sources.
"""
