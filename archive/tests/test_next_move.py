"""How hall-next decides, waits, goes on behind a kill, and takes back what it began: over a machine
that notes what it is asked."""

import io
import json
import os
import stat
import sys
import tempfile
import unittest
from contextlib import redirect_stdout
from unittest.mock import patch

HERE = os.path.dirname(os.path.realpath(__file__))
sys.path.insert(0, f"{HERE}/../../deploy")

import next_move  # noqa: E402
from next_after import Afterwards  # noqa: E402
from next_book import Unfit  # noqa: E402
from next_hand_over import HandOver  # noqa: E402
from next_move import Move, StillOpen, Waiting  # noqa: E402
from next_place import Failed, Place, read, write  # noqa: E402

DAY = "day 2026-12-01\nproduct rice250 nominal 250.000 g tare 10.000\n"
OPEN = f"{DAY}batch A product rice250 state drawn population 1\n"
CLOSED = OPEN.replace("drawn", "closed")
TARE = DAY.replace("10.000", "11.000")
SHA = "ab" * 32


def summary(running: int, closed: int) -> str:
    """As a door says it (docs/FORMATS.md)."""
    return f"rows 9\nbatches running {running} ended 0 drawn 0 closed {closed}\n"


class Machine(Place):
    """Units that are active and enabled, a book's list, what doors say; and what was asked."""

    def __init__(self, folder: str) -> None:
        super().__init__({"BOOKS": folder, "SETTINGS": folder, "USERS": "no", "LIB": "/lib"})
        self.active: set[str] = set()
        self.enabled: set[str] = set()
        self.failed: set[str] = set()
        self.asked: list[str] = []
        self.lists: list[str] = [DAY]
        self.doors: list[str] = []
        # what the doors say behind the rows of the list, and how often the book was read whole
        self.acts: list[str] = []
        self.read = 0
        self.fails = ""

    def holds(self, *words: str) -> bool:
        known = {"is-active": self.active, "is-enabled": self.enabled, "is-failed": self.failed}
        return words[-1] in known[words[0]]

    def control(self, *words: str) -> str:
        said = " ".join(words)
        self.asked.append(said)
        if self.fails and self.fails in said:
            raise Failed(said)
        if words[0] in ("start", "stop"):
            for unit in words[1:]:
                (self.active.add if words[0] == "start" else self.active.discard)(unit)
        elif words[0] == "reset-failed":
            self.failed.discard(words[1])
        elif words[0] in ("enable", "disable"):
            (self.enabled.add if words[0] == "enable" else self.enabled.discard)(words[-1])
        return ""

    def run(self, words: list[str], given: str = "", env: dict[str, str] | None = None) -> str:
        self.asked.append(" ".join(words))
        if self.fails and self.fails in words:
            raise Failed("it fails")
        if "report" in words:
            return "batch A product oil nominal 500.000 ml tne 15.000 ml density 912.500\n"
        return "1 batch A\n" if words[0] == "/lib/planned" else ""

    def of_hall(self, command: str, path: str, *words: str, given: str = "") -> str:
        if command == "run":
            with open(path, "w", encoding="ascii") as file:
                file.write(given)
        if command == "audit":
            return f"rows 9\nsha256 {SHA}\n"
        return "batch A product rice250 nominal 250.000 g\n" if command == "report" else ""

    def listing(self, path: str) -> str:
        self.read += path.endswith("a.book")
        return self.lists.pop(0) if len(self.lists) > 1 else self.lists[0]

    seen = listing

    def ask(self, port: int, path: str) -> str | None:
        said = self.acts if path.startswith("/acts/") else self.doors
        return said.pop(0) if said else None


class Moves(unittest.TestCase):
    def setUp(self) -> None:
        room = tempfile.TemporaryDirectory()
        self.addCleanup(room.cleanup)
        self.folder = room.name
        for name, text in (("a.book", ""), ("a.env", "LANES=1\n"), ("a.toml", "reserve = 4\n")):
            with open(f"{self.folder}/{name}", "w", encoding="ascii") as file:
                file.write(text)
        self.place = Machine(self.folder)
        self.place.active = {"hall@a", "hall-archive-follow@a"}
        self.place.enabled = {"hall@a", "hall-archive-follow@a", "hall-day@a.timer"}
        self.lists: list[str] = []
        self.move = self.decided()

    def decided(self, plan: str = "") -> Move:
        move = Move(self.place, "a")
        move.decide("", plan)
        return move

    def there(self, name: str) -> bool:
        return os.path.exists(f"{self.folder}/{name}")

    def hand_over(self) -> None:
        # of the old book before its hall ends, of the next one, of the old one at rest, and again
        # of the next one
        self.place.lists = self.lists or [CLOSED, DAY, CLOSED, DAY]
        self.go_on()

    def go_on(self) -> None:
        steps = HandOver(self.move)
        with redirect_stdout(io.StringIO()):
            steps.recover()
            steps.run()

    def test_another_book_or_its_plan_that_is_there(self) -> None:
        self.assertEqual(self.move.new, "a-2")
        write(f"{self.folder}/a-2.toml", "")
        with self.assertRaisesRegex(Unfit, "by --plan"):
            self.decided()
        self.assertEqual(self.decided(f"{self.folder}/a-2.toml").new, "a-2")
        write(f"{self.folder}/a-2.book", "")
        with self.assertRaisesRegex(Unfit, "already"):
            Move(self.place, "a").decide("a-2", "")

    def test_hands_all_over(self) -> None:
        self.hand_over()
        acts = ("day 2026-12-01", "product rice250 250.000", "tare rice250 2026-12-01 10.000")
        self.assertEqual(read(f"{self.folder}/a-2.book").splitlines(), list(acts))
        self.assertIn("@164 1 open A rice250", read(f"{self.folder}/a-2.toml"))
        self.assertIn("reserve = 4", read(f"{self.folder}/a-2.toml"))
        self.assertEqual(self.place.active, {"hall@a-2"})
        # followers end before the hall does, and the next one is begun last
        of_units = [one for one in self.place.asked if one.split()[0] in ("stop", "start")]
        self.assertEqual(of_units, ["stop hall-archive-follow@a", "stop hall@a", "start hall@a-2"])

    def test_goes_on_behind_a_kill(self) -> None:
        self.place.fails = "start hall@a-2"
        with self.assertRaises(Failed):
            self.hand_over()
        self.place.fails, self.place.asked = "", []
        self.move = self.decided()
        self.go_on()
        self.assertNotIn("stop hall@a", self.place.asked)
        self.assertIn("hall@a-2", self.place.active)
        # nobody writes the old one, from before the next one was begun
        self.assertEqual(self.mode("a.book"), 0o440)

    def mode(self, name: str) -> int:
        return stat.S_IMODE(os.stat(f"{self.folder}/{name}").st_mode)

    def test_what_is_carried_may_change_until_the_hall_ends(self) -> None:
        self.lists = [OPEN, DAY, TARE, DAY, TARE]
        self.hand_over()
        self.assertIn("tare rice250 2026-12-01 11.000\n", read(f"{self.folder}/a-2.book"))
        self.assertFalse(self.there("a-2.book.new"))

    def ended(self, rows: int) -> None:
        """The old hall ended in good order with so many rows, of one byte each in its snapshot."""
        tail = b"\0T" + rows.to_bytes(4, "little") + rows.to_bytes(8, "little")
        with open(f"{self.folder}/a.book", "wb") as file:
            file.write(b"AQHBOOK2\1".ljust(96 * (rows + 4), b"\0") + tail.ljust(96, b"\0"))

    def test_what_doors_say_is_all_of_the_list(self) -> None:
        self.lists = [f"{OPEN}rows 5 left 9\n", DAY, TARE]
        tare = "tare rice250 2026-12-01 11.000"
        self.place.acts = ["6 released\tdoor 1\t@101 3 close A\n", f"7 ok\tdoor 1\t@101 4 {tare}\n"]
        self.ended(7)
        self.hand_over()
        self.assertEqual(self.place.read, 1)
        self.assertEqual(self.move.known["carried"], TARE.splitlines())

    def test_a_row_more_than_doors_said(self) -> None:
        said: list[tuple[int, list[str]]] = [(8, [""]), (7, [])]
        for rows, more in said:
            with self.subTest(rows=rows):
                self.setUp()
                self.lists = [f"{CLOSED}rows 5 left 9\n", DAY, CLOSED, DAY]
                self.place.acts = ["6 ok\tscript\tday 2026-12-01\n", *more]
                self.ended(rows)
                self.hand_over()
                self.assertEqual(self.place.read, 2)
                self.assertTrue(self.move.known["carried"])

    def test_one_that_is_opened_before_the_hall_ends(self) -> None:
        self.lists = [f"{CLOSED}rows 5 left 9\n", DAY]
        self.place.acts = ["", "6 ok\tdoor 1\t@101 3 open B rice250\n"]
        with self.assertRaisesRegex(StillOpen, "1 batches of a have no verdict: B"):
            self.hand_over()
        self.assertNotIn("stop hall@a", self.place.asked)
        HandOver(self.move).take_back()
        self.assertEqual(self.place.active, {"hall@a", "hall-archive-follow@a"})

    def test_another_list_than_was_carried_is_told(self) -> None:
        self.hand_over()
        self.place.lists = [TARE]
        with redirect_stdout(io.StringIO()), patch("sys.stderr", io.StringIO()) as said:
            with self.assertRaisesRegex(Failed, "isn't done: audit"):
                Afterwards(self.move).run()
        self.assertIn("was begun with another day, product or tare", said.getvalue())

    def test_a_hall_that_was_begun_again_meanwhile(self) -> None:
        self.fails_as_the_front_is_reloaded()
        # the machine was begun anew, and the old hall with it
        self.place.active = {"hall@a", "nginx"}
        self.move = self.decided()
        self.lists, self.place.asked = [CLOSED.replace("10.000", "11.000"), TARE], []
        self.hand_over()
        self.assertIn("stop hall@a", self.place.asked)
        self.assertIn("tare rice250 2026-12-01 11.000\n", read(f"{self.folder}/a-2.book"))
        self.assertEqual(self.place.active, {"hall@a-2", "nginx"})

    def test_killed_as_it_forgets(self) -> None:
        self.fails_as_the_front_is_reloaded()
        with patch("os.remove", side_effect=KeyboardInterrupt), self.assertRaises(
            KeyboardInterrupt
        ):
            HandOver(self.move).take_back()
        self.move = self.decided()
        self.hand_over()
        self.assertEqual(self.place.active, {"hall@a-2", "nginx"})

    def test_a_plan_of_other_lanes_than_its_settings(self) -> None:
        write(f"{self.folder}/a.env", "LANES=2\n")
        with self.assertRaisesRegex(Failed, "has 1 lanes, and LANES is 2"):
            self.hand_over()
        self.assertEqual(self.place.active, {"hall@a", "hall-archive-follow@a"})
        HandOver(self.move).take_back()
        self.assertFalse(self.there("a-2.env"))

    def test_lines_are_begun_again_at_once(self) -> None:
        for name in ("one.lane", "two.line"):
            write(f"{self.folder}/{name}.toml", 'cell = "/run/hall-a/cell-1.txt"\n')
        write(f"{self.folder}/other.lane.toml", 'cell = "/run/hall-b/cell-1.txt"\n')
        self.hand_over()
        self.assertEqual(self.place.asked[-1], "try-restart hall-lane@one hall-line@two")
        self.assertIn("/run/hall-a-2/", read(f"{self.folder}/one.lane.toml"))

    def test_what_lanes_weigh_is_asked_before_anything_is_stopped(self) -> None:
        self.lists = [DAY]
        with self.assertRaisesRegex(Failed, "weighs A, which a lacks"):
            self.hand_over()
        self.assertEqual(self.place.active, {"hall@a", "hall-archive-follow@a"})
        self.move.known["plan"] = f"{self.folder}/a.toml"
        self.go_on()
        self.assertEqual(read(f"{self.folder}/a-2.toml"), "reserve = 4\n")

    def test_a_batch_by_volume_is_opened_at_its_density(self) -> None:
        oil = DAY.replace("rice250", "oil").replace(" g tare", " ml tare")
        self.lists = [f"{oil}batch A product oil state closed population 1\n", oil]
        self.hand_over()
        self.assertIn("@164 1 open A oil 912.500\n", read(f"{self.folder}/a-2.toml"))

    def fails_as_the_front_is_reloaded(self) -> None:
        self.place.active.add("nginx")
        self.place.fails = "reload nginx"
        with self.assertRaises(Failed):
            self.hand_over()
        self.assertTrue(self.there("a-2.book"))
        self.place.fails = ""

    def test_takes_back(self) -> None:
        self.fails_as_the_front_is_reloaded()
        HandOver(self.move).take_back()
        self.assertEqual(self.place.active, {"hall@a", "hall-archive-follow@a", "nginx"})
        for name in ("a-2.book", "a-2.book.new", "a-2.env", "a-2.toml"):
            self.assertFalse(self.there(name), name)
        self.assertEqual(Move(self.place, "a").done(), [])

    def test_killed_as_it_takes_back_the_hall_is_begun_again(self) -> None:
        self.fails_as_the_front_is_reloaded()
        self.place.fails = "start hall@a"
        with self.assertRaises(Failed):
            HandOver(self.move).take_back()
        self.assertFalse(self.there("a-2.env"))
        # the hall has ended, and what ran before is known all the same
        self.place.fails = ""
        self.move = self.decided()
        self.hand_over()
        self.assertEqual(self.place.active, {"hall@a-2", "nginx"})
        self.assertEqual(self.move.known["ran"], ["hall-archive-follow@a"])

    def test_each_step_afterwards_is_by_itself(self) -> None:
        self.hand_over()
        self.place.fails = "hall-day@a-2.timer"
        steps = Afterwards(self.move)
        with redirect_stdout(io.StringIO()), patch("sys.stderr", io.StringIO()) as said:
            with self.assertRaisesRegex(Failed, "isn't done: keepers"):
                steps.run()
        self.assertIn("keepers", said.getvalue())
        self.assertFalse(steps.is_done())
        self.assertEqual(os.stat(f"{self.folder}/a.book").st_mode & 0o777, 0o440)
        self.assertIn(SHA, read(f"{self.folder}/a.audit"))
        self.place.fails = ""
        with redirect_stdout(io.StringIO()):
            steps.run()
        self.assertTrue(steps.is_done())
        self.assertIn("hall-day@a-2.timer", self.place.enabled)
        self.assertNotIn("hall-day@a.timer", self.place.enabled)

    def test_units_end_before_those_of_the_next_begin(self) -> None:
        self.hand_over()
        self.place.enabled.add("hall-metrics@a.service")
        self.place.failed, self.place.asked = {"hall@a"}, []
        self.place.fails = "enable --now --no-reload hall-metrics@a-2"
        with redirect_stdout(io.StringIO()), patch("sys.stderr", io.StringIO()):
            with self.assertRaises(Failed):
                Afterwards(self.move).run()
            self.assertNotIn("hall-metrics@a.service", self.place.enabled)
            self.place.fails, self.move = "", self.decided()
            Afterwards(self.move).run()
        self.assertIn("hall-metrics@a-2.service", self.place.enabled)
        self.assertEqual(self.place.failed, set())

    def test_settings_stay_as_secret_as_they_were(self) -> None:
        path = f"{self.folder}/archive.toml"
        write(path, '[[book]]\nname = "a"\ndoor = 8475\n', 0o640)
        self.hand_over()
        with redirect_stdout(io.StringIO()):
            Afterwards(self.move).run()
        self.assertIn('name = "a-2"', read(path))
        self.assertEqual(stat.S_IMODE(os.stat(path).st_mode), 0o640)


class Waits(unittest.TestCase):
    def setUp(self) -> None:
        room = tempfile.TemporaryDirectory()
        self.addCleanup(room.cleanup)
        self.place = Machine(room.name)
        write(f"{room.name}/a.env", "PORT=8475\nDOORS=1\n")
        self.move = Move(self.place, "a")

    def test_refuses_at_once(self) -> None:
        self.place.doors, self.place.lists = [summary(1, 4)], [OPEN]
        with self.assertRaisesRegex(StillOpen, "1 batches of a have no verdict: A"):
            Waiting(self.move).until_closed(False)

    def test_one_of_the_newest_row_has_no_name_yet(self) -> None:
        self.place.doors = [summary(1, 4)]
        with self.assertRaisesRegex(StillOpen, "1 batches of a have no verdict$"):
            Waiting(self.move).until_closed(False)

    def test_waits_for_the_doors_and_reads_the_book_as_the_number_changes(self) -> None:
        self.place.doors = [summary(2, 0), summary(2, 0), summary(1, 1), summary(0, 2)]
        self.place.lists = [OPEN, OPEN.replace(" A ", " B "), DAY]
        out = io.StringIO()
        with redirect_stdout(out), patch("next_move.time.sleep"):
            Waiting(self.move).until_closed(True)
        said = out.getvalue().splitlines()
        self.assertEqual([line.partition("waits: ")[2] for line in said],
                         ["2 batches of a have no verdict: A",
                          "1 batches of a have no verdict: B"])  # fmt: skip
        self.assertEqual(self.place.lists, [DAY])

    def test_of_a_book_at_rest_its_list_decides(self) -> None:
        self.place.lists = [OPEN, DAY]
        out = io.StringIO()
        with redirect_stdout(out), patch("next_move.time.sleep") as slept:
            Waiting(self.move).until_closed(True)
        self.assertEqual([one.args[0] for one in slept.call_args_list], [20.0])


class Files(unittest.TestCase):
    def test_a_file_that_is_like_another(self) -> None:
        with tempfile.TemporaryDirectory() as folder:
            write(f"{folder}/one", "1\n", 0o600)
            write(f"{folder}/two", "2\n", like=f"{folder}/one")
            self.assertEqual(read(f"{folder}/two"), "2\n")
            self.assertEqual(stat.S_IMODE(os.stat(f"{folder}/two").st_mode), 0o600)
            self.assertEqual(json.loads(read(f"{folder}/one")), 1)


if __name__ == "__main__":
    unittest.main()
