"""Prints what Python's calls of the library take: a row, a way and the nanoseconds of each operation, one a line."""
import random
import threading
import time

from durkenzo import Board

TIMES, SHARDS = 100_000, 4_096


def timed(row, way, operation):
    """Has the operation done at shards chosen at random, and prints what each took."""
    shards = random.Random(1).choices(range(SHARDS), k=TIMES)
    start = time.perf_counter_ns()
    for shard in shards:
        operation(shard)
    print(f"{row};{way};{(time.perf_counter_ns() - start) / TIMES}")


def main():
    counts, locks = [[0] for _ in range(SHARDS)], [threading.Lock() for _ in range(SHARDS)]
    board = Board(counts, servers=1)
    for shard in range(SHARDS):
        board.control.assign(shard, 1)

    def count(shard):
        with mine.admit(shard) as permit:
            permit.body[0] += 1

    def count_locked(shard):
        with locks[shard]:
            counts[shard][0] += 1

    with board.new_pass(1) as mine:
        timed("Python: a look", "board", mine.look)
        timed("Python: an admission, a count in the body, its end", "board", count)
        timed("Python: an admission, a count in the body, its end", "Mutex", count_locked)


main()
