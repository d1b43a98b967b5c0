"""What a book takes on trust, as evidence beside it: tares, scales, densities and what measuring
may be wrong by. Masses in mg, densities in mg a litre, temperatures in thousandths of a degree
Celsius. Records are only ever added, each chained to the one before by its digest."""

import hashlib
import json
from collections.abc import Callable
from typing import Any, NamedTuple

from hall_archive import rules

FIRST = "0" * 64
# OIML R 87: a mean of 10 empties stands for all where it is at most a tenth of the nominal
# quantity; else 25 are weighed, and their standard deviation is at most a quarter of the error.
EMPTIES, MORE_EMPTIES = 10, 25
TARE_SHARE, ERROR_SHARE = 10, 4
# Annex II: all errors of measuring together are at most a fifth of the tolerable error.
BUDGET_SHARE = 5
# A density counts at 20 degrees, within half a degree.
WARM, WITHIN = 20_000, 500
MOST_VALUES = 100
MOST_TEXT = 200
MOST_MASS = 30_000_000
DAY = 86_400_000
NEVER = 36_500


class BadEvidence(ValueError):
    """What was entered can't be evidence; the text says why."""


class Record(NamedTuple):
    """A record. `moment` in ms of UTC; `body` is JSON, with what was entered and what follows from
    it, under `result` whether it is `good`, `bad` or needs `more`."""

    hall: str
    kind: str
    subject: str
    moment: int
    person: str
    body: str
    before: str
    digest: str

    @property
    def result(self) -> str:
        return str(json.loads(self.body)["result"])


def need(holds: bool, said: str) -> None:
    if not holds:
        raise BadEvidence(said)


def number(body: dict[str, Any], key: str, least: int, most: int) -> int:
    value = body.get(key)
    is_whole = isinstance(value, int) and not isinstance(value, bool)
    need(is_whole and least <= int(value or 0) <= most, f"`{key}` is {least} to {most}")
    return int(value or 0)


def numbers(body: dict[str, Any], key: str, least: int, most: int = MOST_MASS) -> list[int]:
    """At least so many masses or densities."""
    values = body.get(key)
    need(
        isinstance(values, list) and least <= len(values) <= MOST_VALUES,
        f"`{key}` has {least} to {MOST_VALUES} numbers",
    )
    return [number({key: value}, key, 0, most) for value in values or []]


def text(body: dict[str, Any], key: str) -> str:
    value = body.get(key)
    need(isinstance(value, str) and 0 < len(value) <= MOST_TEXT, f"`{key}` is a text")
    return str(value)


def mean(values: list[int]) -> float:
    return sum(values) / len(values)


def deviation(values: list[int]) -> float:
    """The standard deviation, of divisor n - 1."""
    middle = mean(values)
    return float((sum((value - middle) ** 2 for value in values) / (len(values) - 1)) ** 0.5)


# ---- the kinds: what was entered, and what follows


def tare(body: dict[str, Any]) -> dict[str, Any]:
    """A tare of 10 or 25 empties, and whether one mean may stand for all."""
    nominal = number(body, "nominal", 5_000, 10_000_000)
    empties = numbers(body, "empties", EMPTIES, 5_000_000)
    total, count, error = sum(empties), len(empties), rules.tne(nominal)
    spread = deviation(empties)
    is_small = TARE_SHARE * total <= nominal * count
    may = is_small or (count >= MORE_EMPTIES and ERROR_SHARE * spread <= error)
    wants_more = not may and count < MORE_EMPTIES
    return {
        "nominal": nominal,
        "empties": empties,
        "mean": round(total / count, 3),
        "deviation": round(spread, 3),
        "least": min(empties),
        "most": max(empties),
        "is_small": is_small,
        "limit": error / ERROR_SHARE,
        # the mean, rounded up to a whole mg: what the act `tare` is offered
        "tare": -(-total // count),
        "result": "good" if may else "more" if wants_more else "bad",
    }


def scale(body: dict[str, Any]) -> dict[str, Any]:
    """A scale that was shown test weights: each within the limit."""
    weights, shown = numbers(body, "weights", 1), numbers(body, "shown", 1)
    need(len(weights) == len(shown), "each weight has what was shown of it")
    limit = number(body, "limit", 1, MOST_MASS)
    errors = [one - weight for weight, one in zip(weights, shown, strict=True)]
    is_good = all(abs(error) <= limit for error in errors)
    return {
        "weights": weights,
        "shown": shown,
        "limit": limit,
        "errors": errors,
        "result": "good" if is_good else "bad",
    }


def density(body: dict[str, Any]) -> dict[str, Any]:
    """A density as weighed in air, which is what an opening takes, at 20 degrees."""
    readings = numbers(body, "readings", 1, 2_000_000)
    temperature = number(body, "temperature", -50_000, 150_000)
    is_warm = abs(temperature - WARM) <= WITHIN
    return {
        "method": text(body, "method"),
        "temperature": temperature,
        "readings": readings,
        "density": round(mean(readings)),
        "result": "good" if is_warm else "bad",
    }


def uncertainty(body: dict[str, Any]) -> dict[str, Any]:
    """All that measuring may be wrong by, added up, against a fifth of the tolerable error."""
    nominal = number(body, "nominal", 5_000, 10_000_000)
    parts = body.get("parts")
    need(isinstance(parts, dict) and 0 < len(parts) <= MOST_VALUES, "`parts` has masses by name")
    named = {str(name)[:MOST_TEXT]: number(parts or {}, name, 0, MOST_MASS) for name in parts or {}}
    used, error = sum(named.values()), rules.tne(nominal)
    return {
        "nominal": nominal,
        "parts": named,
        "used": used,
        "limit": error / BUDGET_SHARE,
        "result": "good" if BUDGET_SHARE * used <= error else "bad",
    }


def call(body: dict[str, Any]) -> dict[str, Any]:
    """A call for help from a lane, until somebody has come: kept beside the evidence, since it too
    has a person and an hour and is never changed."""
    is_open = number(body, "open", 0, 1)
    return {
        "open": is_open,
        "reason": text(body, "reason"),
        "result": "bad" if is_open else "good",
    }


KINDS: dict[str, Callable[[dict[str, Any]], dict[str, Any]]] = {
    "tare": tare,
    "scale": scale,
    "density": density,
    "uncertainty": uncertainty,
    "call": call,
}


def evaluate(kind: str, entered: object) -> str:
    """What was entered with what follows from it, as JSON; BadEvidence where it can't be."""
    need(kind in KINDS, f"no evidence is a {kind[:MOST_TEXT]}")
    need(isinstance(entered, dict), "what was entered is an object")
    assert isinstance(entered, dict)
    return json.dumps(KINDS[kind](entered), sort_keys=True, ensure_ascii=True)


# ---- the chain


def digest_of(record: Record) -> str:
    """The digest of a record, which the next one has."""
    said = json.dumps([*record[:-1]], ensure_ascii=True)
    return hashlib.sha256(said.encode("ascii")).hexdigest()


def chained(
    hall: str, kind: str, subject: str, moment: int, person: str, body: str, before: str
) -> Record:
    record = Record(hall, kind, subject, moment, person, body, before, "")
    return record._replace(digest=digest_of(record))


def first_broken(records: list[Record]) -> int | None:
    """The place, from 1, of the first record of a hall that isn't chained to the one before."""
    before = FIRST
    for place, record in enumerate(records, 1):
        if record.before != before or digest_of(record) != record.digest:
            return place
        before = record.digest
    return None


class Alarm(NamedTuple):
    """Evidence that needs somebody: `why` is `old`, where it is older than `days`, or its result
    where that isn't good."""

    kind: str
    subject: str
    why: str
    days: int


def alarms(newest: list[Record], now: int, days: dict[str, int]) -> list[Alarm]:
    """What of the newest of each is too old, or isn't good."""
    said = []
    for one in newest:
        # a call that was answered never grows old
        most = days.get(one.kind, NEVER)
        if one.result != "good":
            said.append(Alarm(one.kind, one.subject, one.result, most))
        elif now - one.moment > most * DAY:
            said.append(Alarm(one.kind, one.subject, "old", most))
    return said
