"""Tables of devices: which are good, and what is said of those that aren't."""

import unittest
from typing import Any

from hall_adapter.devices import device_of, load, names
from hall_adapter.tables import BadTable

GOOD: dict[str, Any] = {
    "name": "n",
    "follows": "f",
    "line": [{"pattern": r"(?P<weight>\d+)", "means": "weight"}],
}


class Devices(unittest.TestCase):
    """Tables."""

    def test_the_tables_that_come_with_it(self) -> None:
        known = {"and", "bizerba", "garvens", "ishida", "minebea", "ocs", "sbi", "sics"}
        self.assertEqual(set(names()), known)
        for name in names():
            self.assertTrue(load(name).follows.strip())

    def test_faulty_tables(self) -> None:
        device_of(GOOD)
        faulty: list[tuple[str, dict[str, Any]]] = [
            ("unknown key `nmae`", {"nmae": "n"}),
            ("`name` has to be a text", {"name": 7}),
            ("[[line]]", {"line": []}),
            ("is none", {"line": [{"pattern": "(", "means": "weight"}]}),
            ("group that means nothing", {"line": [{"pattern": "(?P<w>)", "means": "word"}]}),
            ("`means` is wieght, and none of", {"line": [{"pattern": "x", "means": "wieght"}]}),
            ("`means` or the group", {"line": [{"pattern": "x"}]}),
            ("group `weight` is missing", {"line": [{"pattern": "x", "means": "weight"}]}),
            ("`unit` is lb", {"unit": "lb"}),
            ("no [[line]] means a weight", {"line": [{"pattern": "x", "means": "word"}]}),
            ("[[line]] has to be a table", {"line": 7}),
            ("`1` means god", {"line": [{"pattern": "(?P<state>1)", "states": {"1": "god"}}]}),
            ("one character each", {"frame": {"end": "\r\n"}}),
            ("`begin` and `end` are one", {"frame": {"begin": "\n"}}),
            ("no byte", {"frame": {"begin": "€"}}),
            ("[frame] has to be a table", {"frame": "\n"}),
            ("`longest` has to be a whole number from 1", {"frame": {"longest": 0}}),
            ("needs `begin`", {"frame": {"check": "xor"}}),
            ("`check` is sum", {"frame": {"check": "sum"}}),
            ("below its `last`", {"counter": {"first": 9, "last": 9}}),
            ("needs the group `counter`", {"counter": {"first": 1, "last": 9}}),
            ("`last` has to be a whole", {"counter": {"first": 1, "last": "9"}}),
        ]
        for said, changed in faulty:
            with self.subTest(said=said), self.assertRaises(BadTable) as caught:
                device_of({**GOOD, **changed})
            self.assertIn(said, str(caught.exception))

    def test_a_table_that_isnt_there(self) -> None:
        with self.assertRaises(BadTable) as caught:
            load("nowhere")
        self.assertIn("no table nowhere: it is one of and, bizerba", str(caught.exception))
        with self.assertRaises(BadTable) as caught:
            load("./nowhere")
        self.assertIn("No such file", str(caught.exception))


if __name__ == "__main__":
    unittest.main()
