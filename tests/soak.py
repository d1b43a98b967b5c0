"""The rounds of tests/soak.sh, which says what they are: PROGRAM FOLDER SECONDS ROWS SEED."""

import sys
import time

from clients import need
from rounds import Rounds

program, folder = sys.argv[1:3]
seconds, most, seed = [int(word) for word in sys.argv[3:]]
# Seconds behind the opening within which a round is killed, or after which it is ended.
LOAD = 2
# Rows that a round may add: nearer to the end the rounds stop.
ROOM = 100_000


def told(rounds, began):
    print(f"{rounds.round} rounds, {rounds.kills} killed, {rounds.early} of them before an answer;"
          f" {rounds.book.rows} rows after {time.monotonic() - began:.0f} s;"
          f" opening takes {rounds.book.opening:.2f} s", flush=True)


def fill(rounds, limit):
    """Weighs by a script up to the limit: the rest is refused, for that alone."""
    book = rounds.book
    lines = rounds.script(limit - book.rows + 10)
    answers = book.ask("run", f"--limit={limit}", script="".join(lines))
    heard = book.compare_script(lines, answers[: len(lines)], killed=False)
    refused = [line for line in answers if line.startswith("refused") and "LaneIdle" not in line]
    need(book.rows == limit and set(refused) == {f"refused 5 BookFull {limit} at {limit}"},
         f"a book of {book.rows} rows with limit {limit} was refused {set(refused)}")
    print(f"full at {limit} rows: {heard} more were taken, {len(refused)} refused")


began = time.monotonic()
rounds = Rounds(program, folder, seed)
while time.monotonic() < began + seconds and rounds.book.rows < most - ROOM:
    killed = rounds.draw.random() < 0.8
    if rounds.round % 2:
        rounds.serve(LOAD, killed)
    else:
        rounds.run(LOAD, killed)
    if rounds.round % 20 == 0:
        told(rounds, began)
told(rounds, began)
fill(rounds, min(most, rounds.book.rows + ROOM))
rounds.book.compare_register()
book = rounds.book
print(f"seed {seed}: the book holds {book.rows} rows, with all {book.gates} packs that a gate let"
      f" out, and all {sum(len(desk.told) for desk in rounds.desks)} acts that were answered,"
      " each once")
