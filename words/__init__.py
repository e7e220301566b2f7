"""Boards in words: reading them, writing them and telling a verdict. Python 3 and its standard library alone.

Nothing here is proved, and nothing here judges: the verdict is that of the program tick."""
