import threading

from durkenzo import Board, IsAdmitted, NotExecutor, NotYet, Raced


class Account:
    balance = 0


board = Board([Account() for _ in range(8)], servers=4)
for shard in range(8):
    board.control.assign(shard, shard % 4 + 1)
done = [0] * 4


def serve(server):
    with board.new_pass(server) as mine:
        for turn in range(20_000):
            try:
                with mine.admit(turn % 8) as permit:
                    permit.body.balance += 1
                    done[server - 1] += 1
            except (NotExecutor, NotYet, IsAdmitted, Raced):
                pass


threads = [threading.Thread(target=serve, args=(it,)) for it in (1, 2, 3, 4)]
for it in threads:
    it.start()
for turn in range(1, 200):
    board.control.migrate(0, turn % 4 + 1)
for it in threads:
    it.join()
board.control.migrate(0, 1)
with board.new_pass(1) as mine:
    print(mine.look(0).owner, "owns account 0 of", mine.run(0, lambda account: account.balance))
