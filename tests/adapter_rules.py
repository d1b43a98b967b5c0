"""The rules of deploy/ before a real prometheus, each number that has to raise an alarm by itself; and
the queries of the dashboard. For tests/adapters.py.

The numbers are a page of this file's own: a hall and a line where all is well, of which one number
at a time is made a bad one. The rules are those of deploy/ but for how long each waits: not at all,
and HallNumbersGone for some seconds, as a busy machine misses a look now and then."""

import http.server
import json
import os
import re
import subprocess
import threading
import time
from typing import Any

from adapter_prometheus import RULES, Prometheus
from adapter_room import FIRST_METRICS, PATIENCE, TOP, say, wait_until
from clients import need

BOARD = f"{TOP}/deploy/grafana-hall.json"
# The ports of the page, and of another one that goes away.
PAGE, OTHER = FIRST_METRICS + 100, FIRST_METRICS + 101
# Seconds from one look of prometheus to the next, and in which an alarm would have come.
EVERY, LOOKS = "500ms", 2.5
GONE = "5s"
LINE, BOOK = 'line="one",lane="1"', 'book="main"'
BATCH = f'{BOOK},batch="A"'
# What hall-status hands out, which comes from elsewhere.
OF_STATUS = {
    "hall_serves",
    "hall_lane_weighs",
    "hall_held",
    "hall_standby_rows_behind",
    "hall_standby_age_seconds",
    "hall_copy_age_seconds",
}
# All is well.
GOOD: dict[str, float] = {
    f"hall_line_stopped{{{LINE}}}": 0,
    f"hall_line_device_linked{{{LINE}}}": 1,
    f"hall_line_hall_linked{{{LINE}}}": 1,
    f"hall_line_waiting{{{LINE}}}": 0,
    f"hall_line_mean_off_grams{{{LINE}}}": 0.25,
    f"hall_line_last_pack_seconds{{{LINE}}}": 1_764_642_600,
    f"hall_line_rejects_confirmed_total{{{LINE}}}": 0,
    f"hall_line_answer_seconds_sum{{{LINE}}}": 1,
    f"hall_line_answer_seconds_count{{{LINE}}}": 100,
    f'hall_line_packs_total{{{LINE},signal="pass"}}': 90,
    f'hall_line_packs_total{{{LINE},signal="reject"}}': 10,
    f"hall_up{{{BOOK}}}": 1,
    f"hall_serves{{{BOOK}}}": 1,
    f"hall_rows{{{BOOK}}}": 100_000,
    f"hall_rows_left{{{BOOK}}}": 50_000,
    f"hall_last_row_age_seconds{{{BOOK}}}": 0.1,
    f'hall_packs_total{{{BOOK},lane="1",signal="pass"}}': 90,
    f'hall_pile_packs{{{BOOK},pile="passed"}}': 90,
    f'hall_batches{{{BOOK},state="running"}}': 1,
    f'hall_lane_working{{{BOOK},lane="1"}}': 1,
    f'hall_lane_weighs{{{BOOK},lane="1",batch="A",state="weighing"}}': 1,
    f"hall_batch_packs{{{BATCH}}}": 101,
    f"hall_batch_mean_margin{{{BATCH}}}": 0.5,
    f"hall_batch_allowance_left{{{BATCH}}}": 2,
    f"hall_batch_inadequate{{{BATCH}}}": 0,
    f"hall_batch_held{{{BATCH}}}": 0,
    f'hall_batch_forecast{{{BATCH},part="average"}}': 1,
    f'hall_batch_forecast{{{BATCH},part="allowance"}}': 1,
    f'hall_batch_forecast{{{BATCH},part="inadequate"}}': 1,
    f'hall_copy_rows_behind{{{BOOK},copy="second"}}': 1_000,
    f'hall_copy_said_age_seconds{{{BOOK},copy="second"}}': 300,
    f"hall_standby_rows_behind{{{BOOK}}}": 1_000,
    f"hall_standby_age_seconds{{{BOOK}}}": 300,
    f"hall_copy_age_seconds{{{BOOK}}}": 172_800,
    f"hall_list_rows_behind{{{BOOK}}}": 2_000,
    f"hall_archive_answers{{{BOOK}}}": 1,
    f"hall_archive_rows_behind{{{BOOK}}}": 1_000,
    f"hall_archive_asked_age_seconds{{{BOOK}}}": 300,
    f"hall_archive_refused{{{BOOK}}}": 0,
    f'hall_disk_free_bytes{{{BOOK},path="/var/lib/hall"}}': 1e9,
    f'hall_door_connections{{{BOOK},port="8471"}}': 19,
    f'hall_door_connections{{{BOOK},port="8472"}}': 19,
    f"hall_doors{{{BOOK}}}": 2,
    f"hall_doors_busy{{{BOOK}}}": 2,
}
KINDS = ("escaped", "wrong", "gate", "skip", "unheard", "repeat")
GOOD |= {f'hall_line_faults_total{{{LINE},kind="{kind}"}}': 0 for kind in KINDS}
WHYS = ("form", "check", "long", "cut", "unit", "motion")
GOOD |= {f'hall_line_unweighed_total{{{LINE},why="{why}"}}': 0 for why in WHYS}
DOORS = [name for name in GOOD if name.startswith("hall_door_connections")]
# Which numbers raise which alarm, and which raise none.
BAD: list[tuple[str, dict[str, float]]] = [
    ("HallLineStopped", {f"hall_line_stopped{{{LINE}}}": 1}),
    ("HallDeviceAway", {f"hall_line_device_linked{{{LINE}}}": 0}),
    ("HallLaneAway", {f"hall_line_hall_linked{{{LINE}}}": 0}),
    ("HallDown", {f"hall_up{{{BOOK}}}": 0}),
    ("HallDown", {f"hall_serves{{{BOOK}}}": 0}),
    ("HallLaneIdle", {f'hall_lane_working{{{BOOK},lane="1"}}': 0}),
    ("HallLaneIdle", {f'hall_lane_weighs{{{BOOK},lane="1",batch="A",state="weighing"}}': 0}),
    ("HallBatchHeld", {f"hall_batch_held{{{BATCH}}}": 1}),
    ("HallBatchHeld", {f"hall_held{{{BATCH}}}": 1}),
    ("HallBatchShort", {f'hall_batch_forecast{{{BATCH},part="average"}}': 0}),
    ("HallBatchShort", {f'hall_batch_forecast{{{BATCH},part="allowance"}}': 0}),
    ("", {f'hall_batch_forecast{{{BATCH},part="inadequate"}}': 0}),
    (
        "",
        {f'hall_batch_forecast{{{BATCH},part="average"}}': 0, f"hall_batch_packs{{{BATCH}}}": 100},
    ),
    ("HallBookFills", {f"hall_rows_left{{{BOOK}}}": 49_999}),
    ("HallCopyBehind", {f'hall_copy_rows_behind{{{BOOK},copy="second"}}': 1_001}),
    ("HallCopyBehind", {f'hall_copy_said_age_seconds{{{BOOK},copy="second"}}': 301}),
    ("HallCopyBehind", {f"hall_standby_rows_behind{{{BOOK}}}": 1_001}),
    ("HallCopyBehind", {f"hall_standby_age_seconds{{{BOOK}}}": 301}),
    ("HallListBehind", {f"hall_list_rows_behind{{{BOOK}}}": 2_001}),
    ("HallArchiveBehind", {f"hall_archive_answers{{{BOOK}}}": 0}),
    ("HallArchiveBehind", {f"hall_archive_rows_behind{{{BOOK}}}": 1_001}),
    ("HallArchiveBehind", {f"hall_archive_asked_age_seconds{{{BOOK}}}": 301}),
    ("HallArchiveBehind", {f"hall_archive_refused{{{BOOK}}}": 1}),
    ("HallBackupOld", {f"hall_copy_age_seconds{{{BOOK}}}": 172_801}),
    ("HallDiskFills", {f'hall_disk_free_bytes{{{BOOK},path="/var/lib/hall"}}': 999_999_999}),
    ("HallDoorsBusy", {door: 20 for door in DOORS}),
    ("", {DOORS[0]: 20}),
]
# Numbers that grow and raise an alarm for ten minutes, so that each is the first of its rule. Those
# that raise none are well below: of few samples prometheus takes a rise to be a greater one.
GROWN: list[tuple[str, dict[str, float]]] = [
    ("", {f'hall_line_faults_total{{{LINE},kind="repeat"}}': 100}),
    ("", {f'hall_line_faults_total{{{LINE},kind="skip"}}': 3}),
    ("", {f'hall_line_unweighed_total{{{LINE},why="motion"}}': 100}),
    ("", {f'hall_line_unweighed_total{{{LINE},why="form"}}': 3}),
    ("HallRejectUnconfirmed", {f'hall_line_faults_total{{{LINE},kind="wrong"}}': 1}),
    ("HallGateFails", {f'hall_line_faults_total{{{LINE},kind="gate"}}': 1}),
    ("HallPacksUnweighed", {f'hall_line_faults_total{{{LINE},kind="unheard"}}': 7}),
    ("HallLinesUnknown", {f'hall_line_unweighed_total{{{LINE},why="unit"}}': 7}),
    (
        "HallAnswersSlowly",
        {
            f"hall_line_answer_seconds_sum{{{LINE}}}": 1 + 4,
            f"hall_line_answer_seconds_count{{{LINE}}}": 100 + 100,
        },
    ),
]
# Rows left of a book of its own, as prometheus looks back half an hour: they fall from FULL to so
# many from one look to the next. Ten in half a second make less than 900 000 in two hours.
FULL = 900_000
FALLEN: list[tuple[str, str, int]] = [
    ("", "slow", FULL - 10),
    ("HallBookFillsSoon", "quick", FULL - 100_000),
]


class Page:
    """A page of numbers, as an exporter has it; without a port it is gone."""

    def __init__(self, port: int, numbers: dict[str, float]) -> None:
        self.numbers = numbers
        self.server = http.server.ThreadingHTTPServer(("127.0.0.1", port), self.answerer())
        threading.Thread(target=self.server.serve_forever, daemon=True).start()

    def answerer(self) -> type[http.server.BaseHTTPRequestHandler]:
        """What answers a request."""
        page = self

        class Answerer(http.server.BaseHTTPRequestHandler):
            """Hands the numbers out."""

            def do_GET(self) -> None:
                lines = [f"{name} {value}\n" for name, value in page.numbers.items()]
                self.send_response(200)
                self.send_header("Content-Type", "text/plain; version=0.0.4")
                self.end_headers()
                self.wfile.write("".join(lines).encode())

            def log_message(self, format: str, *args: object) -> None:
                """Says nothing."""

        return Answerer

    def end(self) -> None:
        """Takes the page away."""
        self.server.shutdown()
        self.server.server_close()


def promtool(*words: str) -> None:
    """Runs promtool."""
    ran = subprocess.run(["promtool", *words], capture_output=True, text=True, timeout=PATIENCE)
    need(ran.returncode == 0, f"promtool: {ran.stdout} {ran.stderr}")


def names_in(text: str) -> set[str]:
    """The numbers that a text names, less the ends of summaries."""
    named = set(re.findall(r"\bhall_[a-z_]+", text))
    return {name.removesuffix("_sum").removesuffix("_count") for name in named}


def check_rules(program: str, folder: str, packs: int, seed: str) -> None:
    """Each rule fires for each number that it is about, alone; and the dashboard has its numbers."""
    promtool("check", "rules", RULES)
    promtool("test", "rules", f"{TOP}/tests/prometheus_rules.yml")
    os.makedirs(f"{folder}/rules")
    with open(RULES, encoding="utf-8") as source:
        text = source.read()
    hasty = f"{folder}/rules/hasty.yml"
    with open(hasty, "w", encoding="utf-8") as copy:
        copy.write(made_hasty(text))
    page, other = Page(PAGE, dict(GOOD)), Page(OTHER, {})
    prometheus = Prometheus(f"{folder}/rules", [PAGE, OTHER], hasty, EVERY)
    wait_until(lambda: len(prometheus.series("up == 1")) == 2, "prometheus has both pages")
    stays_silent(prometheus, set(), "all is well")
    fired = fire_each(prometheus, page) | fire_fallen(prometheus, page)
    fired |= fire_grown(prometheus, page) | fire_gone(prometheus, other)
    named = set(re.findall(r"alert: (\w+)", text))
    need(fired == named, f"no case makes these fire: {named - fired}")
    cases = [alarm for alarm, *_ in [*BAD, *FALLEN, *GROWN]]
    count = sum(1 for alarm in cases if alarm) + 1
    say(
        f"{len(named)} rules: prometheus fires each, for {count} numbers alone, and none for"
        f" {len(cases) + 1 - count} others"
    )
    # a panel names the batches that are held, and has 0 without a name where none is
    page.numbers[f"hall_batch_held{{{BATCH}}}"] = 1
    wait_until(lambda: prometheus.series("hall_batch_held == 1"), "a batch is held")
    check_board(prometheus, text)
    prometheus.end()
    page.end()


def made_hasty(rules: str) -> str:
    """The rules without their waits, but for pages that are gone: a short one."""
    before, gone, behind = rules.partition("- alert: HallNumbersGone\n")
    before, rest = (re.sub(r"^ +for: .*\n", "", part, flags=re.M) for part in (before, behind))
    made, count = re.subn(r"^( +)(?=labels: )", rf"\1for: {GONE}\n\1", rest, count=1, flags=re.M)
    need(bool(gone) and count == 1, "there is no rule for pages that are gone")
    return before + gone + made


def are_had(prometheus: Prometheus, numbers: dict[str, float]) -> None:
    """Waits until prometheus has these numbers."""
    for name, value in numbers.items():
        wait_until(lambda: prometheus.value(name) == value, f"prometheus has {name} {value}")


def stays_silent(prometheus: Prometheus, wanted: set[str], why: str) -> None:
    """For some looks no other alarm fires."""
    end = time.monotonic() + LOOKS
    while time.monotonic() < end:
        need(prometheus.firing() <= wanted, f"{prometheus.firing()} fires where {why}")
        time.sleep(0.2)


def comes(prometheus: Prometheus, wanted: set[str], why: str) -> None:
    """These alarms and no others fire, at some time soon."""
    wait_until(lambda: prometheus.firing() == wanted, f"{wanted} for {why}", 60.0)


def fire_each(prometheus: Prometheus, page: Page) -> set[str]:
    """Makes one number bad at a time; gives which alarms were raised."""
    for alarm, numbers in BAD:
        page.numbers = {**GOOD, **numbers}
        if alarm:
            comes(prometheus, {alarm}, str(numbers))
        else:
            are_had(prometheus, numbers)
            stays_silent(prometheus, set(), str(numbers))
        page.numbers = dict(GOOD)
        comes(prometheus, set(), f"what is well again behind {numbers}")
    return {alarm for alarm, _ in BAD if alarm}


def fire_fallen(prometheus: Prometheus, page: Page) -> set[str]:
    """Has the rows left of a book fall; gives which alarms were raised."""
    for alarm, book, left in FALLEN:
        name = f'hall_rows_left{{book="{book}"}}'
        page.numbers = {**GOOD, name: FULL}
        are_had(prometheus, {name: FULL})
        page.numbers = {**GOOD, name: left}
        if alarm:
            comes(prometheus, {alarm}, f"{name} falls to {left}")
        else:
            are_had(prometheus, {name: left})
            stays_silent(prometheus, set(), f"{name} falls to {left}")
        page.numbers = dict(GOOD)
        comes(prometheus, set(), f"what is well again behind {name}")
    return {alarm for alarm, _, _ in FALLEN if alarm}


def fire_grown(prometheus: Prometheus, page: Page) -> set[str]:
    """Has numbers grow; gives which alarms were raised."""
    wanted: set[str] = set()
    for alarm, numbers in GROWN:
        page.numbers = {**page.numbers, **numbers}
        if alarm:
            wanted.add(alarm)
            comes(prometheus, wanted, str(numbers))
        else:
            are_had(prometheus, numbers)
            stays_silent(prometheus, wanted, str(numbers))
    return wanted


def fire_gone(prometheus: Prometheus, other: Page) -> set[str]:
    """A page that is gone."""
    before = prometheus.firing()
    other.end()
    comes(prometheus, before | {"HallNumbersGone"}, "a page that is gone")
    return {"HallNumbersGone"}


# ---- the dashboard


def check_board(prometheus: Prometheus, rules: str) -> None:
    """The dashboard: prometheus takes each query and has numbers for it, with the labels that its
    legend names; each number is one that is handed out; no two panels lie on one another."""
    from hall_adapter.metrics import FAMILIES

    with open(BOARD, encoding="utf-8") as source:
        board = json.load(source)
    targets = [target for panel in board["panels"] for target in panel["targets"]]
    for target in targets:
        query = target["expr"].replace("$book", ".*").replace("$line", ".*")
        found = found_for(prometheus, query)
        labels = set(re.findall(r"{{(\w+)}}", target.get("legendFormat", "")))
        need(labels <= set(found[0]["metric"]), f"{query} has no {labels}: {found[0]['metric']}")
    for words in board["templating"]["list"]:
        if words["type"] == "query":
            check_variable(prometheus, words["definition"])
    check_places(board["panels"])
    named = names_in(rules + "\n".join(target["expr"] for target in targets))
    known = set(FAMILIES) | OF_STATUS
    need(named <= known, f"nobody hands out {named - known}")
    need(names_in("\n".join(GOOD)) <= known, f"nobody hands out {names_in(str(GOOD)) - known}")
    say(f"dashboard: {len(targets)} queries of {len(board['panels'])} panels, each with numbers")


def found_for(prometheus: Prometheus, query: str) -> list[Any]:
    """The series that a query gives; there have to be some, once no look is missed."""
    found: list[Any] = []

    def are_there() -> bool:
        found[:] = prometheus.series(query)
        return bool(found)

    wait_until(are_there, f"prometheus has numbers for {query}", 60.0)
    return found


def check_variable(prometheus: Prometheus, definition: str) -> None:
    """A variable of the dashboard has values."""
    found = re.fullmatch(r"label_values\((\w+), (\w+)\)", definition)
    need(found is not None, f"{definition} is no variable")
    assert found is not None
    values = prometheus.ask(f"label/{found[2]}/values", **{"match[]": found[1]})
    need(bool(values), f"{definition} has no values")


def check_places(panels: list[dict[str, dict[str, int]]]) -> None:
    """No two panels have an id or a place in common, and each lies within the 24 columns."""
    need(len({str(panel["id"]) for panel in panels}) == len(panels), "two panels have one id")
    taken: set[tuple[int, int]] = set()
    for panel in panels:
        grid = panel["gridPos"]
        columns = range(grid["x"], grid["x"] + grid["w"])
        rows = range(grid["y"], grid["y"] + grid["h"])
        places = {(column, row) for column in columns for row in rows}
        need(max(columns) < 24 and not places & taken, f"a panel lies on another: {grid}")
        taken |= places
