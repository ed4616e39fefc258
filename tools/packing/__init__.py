"""The parts of ./dist: the files that are packed, the pages and completions that are made for them, and the
archives."""
