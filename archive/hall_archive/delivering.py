"""Delivers what a hall's follower keeps in its own SQLite to the archive of several halls: rows
with their hours, persons, refused acts, evidence, alarms and sums. Each commit there stands
only where it is the next one, so that nothing comes twice and nothing is missing, whatever is
cut or killed; what can't be delivered stays where it is, and is delivered later."""

import threading
from typing import Any

from hall_archive import nets
from hall_archive.clock import Answer, Clock
from hall_archive.evidence import Record
from hall_archive.halls import open_central
from hall_archive.keeping import KINDS
from hall_archive.questions import Books
from hall_archive.service import Said
from hall_archive.standing import Move
from hall_archive.store import Store
from hall_archive.summing import Rows, delta_of, keep, many
from hall_archive.taking import Behind, BatchRow, PackRow, Taken, Unkept

# Rows of one commit, and lines of what comes beside them.
AT_ONCE = 16_384
MOST = 1_000
# Seconds between two looks for what is new, and after a fault.
EVERY, PAUSE = 2.0, 5.0
# In each so many looks what is beside the rows is looked at too.
BESIDE = 5
ADD_PERSON = """
    INSERT INTO person (row, book, name, reason, low, high) VALUES (%s, %s, %s, %s, %s, %s)
    ON CONFLICT (book, row) DO NOTHING"""
ADD_REFUSAL = "INSERT INTO refusal (moment, book, person, act, line) VALUES (%s, %s, %s, %s, %s)"
ADD_ALARM = "INSERT INTO alarm (book, moment, what) VALUES (%s, %s, %s)"
ADD_EVIDENCE = f"""
    INSERT INTO evidence ({', '.join(Record._fields)})
    VALUES ({', '.join(['%s'] * len(Record._fields))})"""


class Own(Books):
    """What a hall's own archive has of one book."""

    def __init__(self, store: Store) -> None:
        super().__init__(store.reads)
        self.store, self.book = store, store.book

    def all(self, statement: str, **values: Any) -> list[Any]:
        return self.ask(statement, book=self.book, **values)

    def end_of(self, after: int) -> int:
        """Up to which row the next commit goes: to the end of an answer."""
        [(upto,)] = self.all(
            "SELECT max(upto) FROM answer WHERE book = :book AND upto > :after AND upto <= :most",
            after=after,
            most=after + AT_ONCE,
        )
        if upto is None:
            [(upto,)] = self.all(
                "SELECT min(upto) FROM answer WHERE book = :book AND upto > :after", after=after
            )
        return int(upto or after)

    def taken(self, after: int, upto: int) -> Taken:
        """The rows behind `after` up to `upto`, as a follower hands them in."""
        cursor = self.store.cursor()
        taken = Taken(after, upto, cursor.asked, cursor.clock)
        rows = {"after": after, "upto": upto}
        taken.packs = self.packs(rows)
        taken.acts = [
            (row, batch, product, kind, line)
            for row, batch, product, kind, line in self.all(
                """SELECT row, batch, product, kind, line FROM act
                WHERE book = :book AND row > :after AND row <= :upto ORDER BY row""",
                **rows,
            )
        ]
        taken.moves = [
            Move(pack, nets.PILES[pile], row)
            for pack, pile, row in self.all(
                """SELECT pack, pile, row FROM move
                WHERE book = :book AND row > :after AND row <= :upto ORDER BY row""",
                **rows,
            )
        ]
        taken.answers = self.answers(rows)
        taken.batches = self.batches_at(rows)
        return taken

    def packs(self, rows: dict[str, int]) -> list[PackRow]:
        return [
            (row, batch, day, gross, by, lane, prior, signal)
            for row, batch, day, gross, by, lane, prior, signal in self.all(
                """SELECT row, batch, day, gross, "by", lane, prior, signal FROM pack
                WHERE book = :book AND row > :after AND row <= :upto ORDER BY row""",
                **rows,
            )
        ]

    def answers(self, rows: dict[str, int]) -> list[Answer]:
        return [
            Answer(upto, low, high, KINDS[kind], Clock(boot, offset))
            for upto, low, high, kind, boot, offset in self.all(
                """SELECT a.upto, a.low, a.high, a.kind, c.boot, c."offset"
                FROM answer a JOIN clock c ON c.id = a.clock
                WHERE a.book = :book AND a.upto > :after AND a.upto <= :upto ORDER BY a.upto""",
                **rows,
            )
        ]

    def batches_at(self, rows: dict[str, int]) -> list[BatchRow]:
        """The batches that these rows speak of, as they now stand here."""
        found = self.all(
            """SELECT row, name, product, state, verdict, first, last, closed FROM batch
            WHERE book = :book AND row IN (
                SELECT batch FROM pack WHERE book = :book AND row > :after AND row <= :upto
                UNION SELECT batch FROM act WHERE book = :book AND row > :after AND row <= :upto)
            ORDER BY row""",
            **rows,
        )
        return [BatchRow(*one) for one in found]


class Delivery:
    """Delivers one book."""

    def __init__(self, own: Store, url: str) -> None:
        self.own, self.store = Own(own), own
        self.engine = open_central(url)
        self.central: Store | None = None
        self.place = 0

    def reached(self) -> Store:
        """The book in the archive of several halls; Unkept where that isn't reached."""
        if self.central is None:
            self.central = Store(self.engine, self.store.hall, self.store.name)
            # by the same links, which are given up where the line is dead
            self.central.reads = self.engine
        return self.central

    def step(self) -> int:
        """Delivers one commit of rows, and the sums of them; how many rows are left."""
        there = self.reached()
        upto, after = self.store.cursor().upto, there.cursor().upto
        if upto > after:
            end = self.own.end_of(after)
            there.keep(self.own.taken(after, end))
            after = end
        self.sum(there, after)
        return upto - after

    def beside(self) -> None:
        """Delivers what is new beside the rows."""
        there = self.reached()
        upto = there.cursor().upto
        with there.keeper.commit() as cursor:
            self.persons(there, cursor, upto)
            self.others(there, cursor)

    def sum(self, there: Store, upto: int) -> None:
        """The sums there are made of the rows here."""
        sums = Rows(there.reads, there.book)
        state = sums.summed()
        if state.upto < upto:
            delta = delta_of(Rows(self.store.reads, self.store.book, sums), state, upto)
            with there.keeper.commit() as cursor:
                keep(there.keeper, cursor, delta)

    def persons(self, there: Store, cursor: Any, upto: int) -> None:
        """Persons are numbered here as they came; one that is there already stays."""
        found = self.own.all(
            """SELECT rowid, row, name, reason, low, high FROM person
            WHERE book = :book AND rowid > :place AND row <= :upto ORDER BY rowid LIMIT :most""",
            place=self.place,
            upto=upto,
            most=MOST,
        )
        lines = [(row, there.book, *more) for _, row, *more in found]
        many(there.keeper, cursor, ADD_PERSON, lines)
        if found:
            self.place = found[-1][0]

    def others(self, there: Store, cursor: Any) -> None:
        """Refused acts, alarms and evidence, each behind as many as are there."""
        keeper = there.keeper
        for table, columns, add in (
            ("refusal", "moment, :there, person, act, line", ADD_REFUSAL),
            ("alarm", ":there, moment, what", ADD_ALARM),
        ):
            counted = f"SELECT count(*) FROM {table} WHERE book = %s"
            count = keeper.run(cursor, counted, (there.book,)).fetchone()[0]
            found = self.own.all(
                f"""SELECT {columns} FROM {table} WHERE book = :book
                ORDER BY id LIMIT {MOST} OFFSET {int(count)}""",
                there=there.book,
            )
            many(keeper, cursor, add, map(tuple, found))
        self.evidence(there, cursor)

    def evidence(self, there: Store, cursor: Any) -> None:
        """The hall's evidence; several books of it may be delivered at once."""
        hall = self.store.hall
        [(here,)] = self.own.ask("SELECT count(*) FROM evidence WHERE hall = :hall", hall=hall)
        counted = "SELECT count(*) FROM evidence WHERE hall = %s"
        if here == there.keeper.run(cursor, counted, (hall,)).fetchone()[0]:
            return
        if there.keeper.is_postgres:
            cursor.execute("LOCK TABLE evidence IN EXCLUSIVE MODE")
        count = there.keeper.run(cursor, counted, (hall,)).fetchone()[0]
        found = self.own.ask(
            f"""SELECT {', '.join(Record._fields)} FROM evidence WHERE hall = :hall
            ORDER BY id LIMIT {MOST} OFFSET {int(count)}""",
            hall=hall,
        )
        many(there.keeper, cursor, ADD_EVIDENCE, map(tuple, found))

    def all(self) -> int:
        """Delivers all that there is; how many rows there are."""
        while self.step():
            pass
        self.beside()
        return self.reached().cursor().upto


class Delivering(threading.Thread):
    """Delivers a book until `stop`, and once more behind it."""

    def __init__(self, own: Store, url: str) -> None:
        super().__init__(daemon=True)
        self.delivery = Delivery(own, url)
        self.name = own.name
        self.stop = threading.Event()
        self.said = Said()
        self.turn = 0

    def run(self) -> None:
        while not self.stop.is_set():
            self.stop.wait(EVERY if self.look() else PAUSE)
        self.look()

    def look(self) -> bool:
        """Delivers what is new; False where it can't be, which is said once."""
        try:
            while self.delivery.step() and not self.stop.is_set():
                pass
            self.turn += 1
            if self.turn % BESIDE == 1 or self.stop.is_set():
                self.delivery.beside()
        except (Unkept, Behind) as fault:
            self.said.fault(f"{self.name}: not delivered, and kept here: {fault}")
            self.delivery.central = None
            return False
        self.said.good(f"{self.name}: delivered again")
        return True
