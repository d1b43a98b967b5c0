"""Evidence: what follows from what was entered, worked out by hand, and its chain."""

import json
import unittest
from typing import Any

from hall_archive import evidence
from hall_archive.evidence import (
    Alarm,
    BadEvidence,
    Record,
    alarms,
    chained,
    evaluate,
    first_broken,
)

DAY = 86_400_000


def told(kind: str, **entered: object) -> dict[str, Any]:
    found = json.loads(evaluate(kind, entered))
    assert isinstance(found, dict)
    return found


class Kinds(unittest.TestCase):
    """Each kind of evidence."""

    def test_a_small_tare(self) -> None:
        # mean 10 000.5, squares of deviations 9 * 0.25 + 20.25 = 22.5, by 9: 2.5
        found = told("tare", nominal=250_000, empties=[10_000] * 9 + [10_005])
        self.assertEqual((found["mean"], found["deviation"]), (10000.5, 1.581))
        self.assertEqual((found["tare"], found["least"], found["most"]), (10001, 10000, 10005))
        self.assertEqual((found["result"], found["limit"]), ("good", 2250))

    def test_a_tenth_of_the_nominal_quantity_is_small(self) -> None:
        self.assertEqual(told("tare", nominal=100_000, empties=[10_000] * 10)["result"], "good")
        empties = [10_000] * 9 + [10_001]
        self.assertEqual(told("tare", nominal=100_000, empties=empties)["result"], "more")

    def test_a_great_tare_needs_25_and_a_small_spread(self) -> None:
        # TNE of 250 g is 9 g, a quarter 2 250 mg; 25 empties, 12 of them 2a more than 12 others
        for apart, result in ((2_200, "good"), (2_300, "bad")):
            empties = [100_000 - apart] * 12 + [100_000] + [100_000 + apart] * 12
            found = told("tare", nominal=250_000, empties=empties)
            # variance is 24 * apart^2 / 24
            self.assertEqual((found["deviation"], found["result"]), (apart, result))

    def test_a_scale(self) -> None:
        weights, limit = [100_000, 250_000], 500
        good = told("scale", weights=weights, shown=[100_500, 249_500], limit=limit)
        self.assertEqual((good["errors"], good["result"]), ([500, -500], "good"))
        bad = told("scale", weights=weights, shown=[100_501, 250_000], limit=limit)
        self.assertEqual(bad["result"], "bad")

    def test_a_density(self) -> None:
        found = told("density", readings=[997_000, 997_200], temperature=20_500, method="flask")
        self.assertEqual((found["density"], found["result"]), (997_100, "good"))
        found = told("density", readings=[983_200], temperature=60_000, method="flask")
        self.assertEqual(found["result"], "bad")

    def test_an_uncertainty(self) -> None:
        for scale, result in ((1_700, "good"), (1_701, "bad")):
            found = told("uncertainty", nominal=250_000, parts={"scale": scale, "tare": 100})
            self.assertEqual((found["used"], found["result"]), (scale + 100, result))

    def test_a_call(self) -> None:
        for is_open, result in ((1, "bad"), (0, "good")):
            found = told("call", open=is_open, reason="lane")
            self.assertEqual((found["open"], found["result"]), (is_open, result))

    def test_what_cant_be(self) -> None:
        for kind, entered in (
            ("word", {}),
            ("tare", []),
            ("tare", {}),
            ("tare", {"nominal": 250_000, "empties": [10_000] * 9}),
            ("tare", {"nominal": 4_999, "empties": [10_000] * 10}),
            ("tare", {"nominal": 250_000, "empties": [10_000] * 9 + [-1]}),
            ("tare", {"nominal": 250_000, "empties": [10_000] * 9 + ["1"]}),
            ("tare", {"nominal": 250_000, "empties": [10_000] * 9 + [True]}),
            ("tare", {"nominal": 250_000, "empties": [10_000] * 101}),
            ("scale", {"weights": [1], "shown": [1, 2], "limit": 1}),
            ("scale", {"weights": [1], "shown": [1]}),
            ("density", {"readings": [997_000], "temperature": 20_000}),
            ("density", {"readings": [], "temperature": 20_000, "method": "x"}),
            ("uncertainty", {"nominal": 250_000, "parts": {}}),
            ("uncertainty", {"nominal": 250_000, "parts": {"a": 1.5}}),
            ("call", {"open": 2, "reason": "lane"}),
            ("call", {"open": 1}),
        ):
            with self.assertRaises(BadEvidence, msg=(kind, entered)):
                evaluate(kind, entered)


class Chain(unittest.TestCase):
    """Records, one behind the other."""

    def records(self) -> list[Record]:
        found: list[Record] = []
        for place, kind in enumerate(("scale", "tare", "scale")):
            before = found[-1].digest if found else evidence.FIRST
            body = json.dumps({"result": "good", "n": place})
            found.append(chained("main", kind, f"{place}", place * DAY, "anna", body, before))
        return found

    def test_it_holds(self) -> None:
        self.assertIsNone(first_broken(self.records()))
        self.assertIsNone(first_broken([]))

    def test_each_change_is_found(self) -> None:
        for place in range(3):
            for field in Record._fields:
                records = self.records()
                value: Any = 7 if field == "moment" else "other"
                records[place] = records[place]._replace(**{field: value})
                self.assertEqual(first_broken(records), place + 1, field)
            records = self.records()
            del records[place]
            # the last one's going shows only against the witness of a later one
            self.assertEqual(first_broken(records), None if place == 2 else place + 1)

    def test_alarms(self) -> None:
        days = {"scale": 1, "tare": 90}
        records = self.records()
        self.assertEqual(alarms(records, DAY, days), [])
        self.assertEqual(alarms(records, DAY + 1, days), [Alarm("scale", "0", "old", 1)])
        bad = records[1]._replace(body='{"result": "more"}')
        self.assertEqual(alarms([bad], 0, days), [Alarm("tare", "1", "more", 90)])

    def test_a_call_is_an_alarm_until_somebody_came(self) -> None:
        call = self.records()[0]._replace(kind="call", subject="3")
        self.assertEqual(alarms([call], 30_000 * DAY, {}), [])
        called = call._replace(body='{"result": "bad"}')
        self.assertEqual(alarms([called], DAY, {})[0][:3], ("call", "3", "bad"))
