"""Keeps the acts that a hall refused (`refused_lines`): the book doesn't have them. Each line
of the front is taken once; how far the log was read stands beside the lines."""

from hall_archive.people import Log, Place
from hall_archive.persons import PUT_PLACE
from hall_archive.questions import Books
from hall_archive.refused_lines import read_refused
from hall_archive.store import Store

FIND_PLACE = "SELECT file, place FROM front_log WHERE path = :path"
ADD = "INSERT INTO refusal (moment, book, person, act, line) VALUES (%s, %s, %s, %s, %s)"


class Refusals:
    """Keeps the refused acts of one book."""

    def __init__(self, store: Store, path: str) -> None:
        self.store = store
        self.key = f"refused {store.hall} {store.name} {path}"
        found = Books(store.reads).ask(FIND_PLACE, path=self.key)
        self.log = Log(path, Place(*found[0]) if found else Place(0, 0))

    def look(self) -> None:
        """Takes in what came; where the database fails it is read again."""
        lines, place = self.log.lines()
        if not lines:
            return
        found = [one for text in lines if (one := read_refused(text, self.store.name))]
        keeper = self.store.keeper
        with keeper.commit() as cursor:
            for one in found:
                keeper.run(cursor, ADD, (one.moment, self.store.book, *one[1:]))
            keeper.run(cursor, PUT_PLACE, (self.key, *place))
        self.log.place = place
