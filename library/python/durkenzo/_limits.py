"""The limits, which are the constants of the proved crates."""

# By tools/library-codes, the limits of library/codes.txt:

MAX_KEY = 255  # the most bytes that a key may have
MAX_TEXT = 65_535  # the most bytes that a text of the sample service may have
MAX_SHARD = 4_095  # the greatest number of a shard
MAX_SERVER = 4_095  # the greatest number of a server
MAX_GENERATION = 68_719_476_735  # the greatest ceiling of a board's generations
MOST_HOPS = 4  # how many times a request is forwarded at most
# End of them.
