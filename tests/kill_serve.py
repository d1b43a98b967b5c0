"""Kills `hall serve` again and again, as tests/kill.sh says. PROGRAM FOLDER SEED TIMES."""

import sys

from rounds import Rounds

program, folder, seed, serves = sys.argv[1:]
rounds = Rounds(program, folder, int(seed))
for _ in range(int(serves)):
    rounds.serve(load=0.5)
    rounds.book.compare_register()
book = rounds.book
acts = sum(len(desk.told) for desk in rounds.desks)
print(f"seed {seed}: serve was killed {rounds.kills} times, {rounds.early} of them before its first"
      f" answer; {book.unheard} packs had passed whose line the gate hadn't got")
print(f"the book holds {book.rows} rows, with all {book.gates} packs that a gate let out, and all"
      f" {acts} acts that were answered, each once")
