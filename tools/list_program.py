"""The lists of the program, and where else they stand: routes, faults, commands, options, the
header of the register, statuses, stops."""

from list_parts import List, Place
from list_patterns import (
    IN_BYTES,
    IN_TICKS,
    NUMBER_ROW,
    PATH_ROW,
    WORD_ROW,
    chapter,
    function,
    method,
    table,
)

TABLE = "crates/command_line/src/table.rt"
ENDINGS = "crates/call_endings/src"
REPORTS = "crates/job_reports/src"
RESPONSES = "crates/office_responses/src/replies.rt"

ROUTES = List(
    "route",
    (Place("crates/office_routes/src/routes.rt", r'add\(&mut router, "(?P<name>[^"]+)"'),),
    (
        Place("docs/FORMATS.md", PATH_ROW, chapter("Requests"), True),
        Place("crates/office_wire_tests/src/*.rt", r'(?:"|GET |POST )ITEM[ "]'),
        Place("tests/front.py", r'"/hallITEM"'),
        Place("tests/office.sh", r"(?:page |\$url)ITEM[\s\"]"),
        # (acts have a test of their own)
        Place("tests/storm.py", r'"ITEM["?]', method("question"), without=("/acts",)),
    ),
)

# What a request at fault is answered.
FAULTS = List(
    "fault of a request",
    (Place(RESPONSES, IN_BYTES, function("bad_word")),),
    (
        Place(
            "docs/FORMATS.md",
            r"^\|[^|]*\| `\d{3} [^|]*\| `(?P<name>\w+)` \|",
            chapter("Responses"),
            True,
        ),
        # (a request that is cut has a test of its own)
        Place("tests/storm.py", r', \d{3}, "(?P<name>\w+)", "', whole=True, without=("short",)),
    ),
)

COMMANDS = (
    List(
        "command",
        (Place(TABLE, r'"(?P<name>\w+)" => Some\(Command'),),
        (
            Place("docs/FORMATS.md", WORD_ROW, chapter("The command line"), True),
            Place("docs/FORMATS.md", r"^\| 0 \|[^|]*`ITEM`", chapter("The exit statuses")),
            Place("docs/promises/commands.md", r"^##.*\bITEM\b"),
            Place("docs/[!F]*.md", r"(?:`|hall )ITEM\b"),
            Place("deploy/hall.1", r"^\.Cm (?P<name>\w+)", whole=True),
            Place("deploy/hall.1", r"^\.It Cm (?P<name>\w+)", whole=True),
            Place(
                "deploy/hall.bash",
                r'(?<=["\s])(?P<name>[a-z]+)(?=["\s])',
                r"local (commands.*?)\n    local ",
                True,
            ),
            Place("crates/bad_lines/src/words.rt", r'"(?P<name>\w+)"', table("USAGES"), True),
            Place("crates/command_line_tests/src/words.rt", r'\["ITEM"'),
            # (books for it are those of tests/audit.py)
            Place("crates/hall_*_tests/src/*.rt", r'"ITEM"', without=("audit",)),
            Place("tests/*.py", r'"ITEM"'),
        ),
    ),
    List(
        "command that reads a running book",
        (
            Place(
                "crates/command_line/src/needs.rt",
                r"Command::(?P<name>\w+)",
                r"BookUse::Makes\),(.*?)BookUse::Examines",
            ),
        ),
        (
            Place(
                "docs/FORMATS.md",
                r"`(?P<name>[a-z]+)`",
                r"read of a running book\.\*\*(.*?)\sover a",
                True,
            ),
        ),
    ),
)

# The crates of commands are those of a room of crates/README.md.
CRATES = List(
    "crate of a command",
    (Place("crates/README.md", IN_TICKS, r"^\| The program: commands \|[^|]*\|(.*?)\|$"),),
    # (commands.md or equal.md)
    (Place("docs/promises/[ce][oq]*.md", r"\bITEM\b", without=("text_streams",)),),
)

OF_RUN = ("book", "limit", "lanes", "cells", "remote")
FORM = r"Command::(?P<name>\w+) => Form::(?:Options|Needed)\(&\[(?P<rest>[^]]*)\]\)"
OPTION = r"(?:--|Fl -)(\w+)"

OPTIONS = (
    List(
        "option of a command",
        (Place(TABLE, FORM, inner=r'"(\w+)"'),),
        (
            Place(
                "docs/FORMATS.md",
                r"^\| `(?P<name>\w+)` \|(?P<rest>[^|]*)\|",
                chapter("The command line"),
                True,
                # (those of `run`, and ..)
                without=tuple(f"serve {it}" for it in OF_RUN),
                inner=OPTION,
            ),
            Place(
                "deploy/hall.1",
                r"^\.Cm (?P<name>\w+)\n(?P<rest>(?:\.(?:Op )?Fl .*\n)*)",
                whole=True,
                inner=OPTION,
            ),
            Place(
                "deploy/hall.bash",
                r'^ +(?P<name>[a-z |]+)\) options="(?P<rest>.*)"',
                whole=True,
                inner=OPTION,
            ),
        ),
    ),
    List(
        "option",
        (Place(TABLE, r'"(?P<name>[a-z]+)"', r"Form::(?:Options|Needed)\(&\[(.*?)\]\)"),),
        (
            Place("docs/FORMATS.md", r"--ITEM\b", chapter("The command line")),
            Place("docs/[!F]*.md", r"--ITEM\b"),
            Place("deploy/hall.1", r"^\.It Fl -(?P<name>\w+)", whole=True),
            Place("deploy/hall.bash", r"--(?P<name>\w+)", r"case \$before in(.*?)esac", True),
            Place("crates/bad_lines/src/words.rt", r'\("(?P<name>\w+)", Value:', whole=True),
            Place("crates/command_line_tests/src/words.rt", r'"--ITEM[="]'),
            Place("tests/*.[ps][yh]", r"--ITEM\b"),
        ),
    ),
    List(
        "option of serve",
        (Place(TABLE, r'"(?P<name>[a-z]+)"', r"Serve => Form::Options\(&\[(.*?)\]\)"),),
        (
            Place("deploy/start", r"--ITEM\b"),
            Place("deploy/hall.env", r"^#?ITEM=", without=("book", "cells")),
        ),
    ),
)

ENDS = List(
    "end of a range",
    (
        Place(
            "docs/FORMATS.md",
            r"^\| (?P<name>`--[^|]*) \| (?P<rest>\d[^|]*) \|",
            chapter("The command line"),
            inner=r"\d(?:[\d ]*\d)?",
        ),
    ),
    (
        Place(
            "crates/bad_lines/src/words.rt",
            r'\("(?P<name>\w+)", Value::Number\((?P<rest>[^)]*)\)',
            whole=True,
            inner=r"[\d_]+",
        ),
        Place(
            "crates/command_line_tests/src/words.rt",
            r'"--(?P<name>\w+)(?P<rest>(?:=|", ")\d+)"',
            inner=r"\d+",
        ),
    ),
)

HEADER = List(
    "header of the register",
    (
        Place(
            "crates/pack_register/specs/Register.antt",
            r'header_text = codes "(?P<name>[\w,]+)',
        ),
    ),
    (
        Place("docs/FORMATS.md", "^ITEM$"),
        Place("docs/INSPECTOR.md", "^ITEM$"),
        Place("crates/pack_register_tests/src/*.rt", "ITEM"),
        Place("crates/report_run_tests/src/*.rt", "ITEM"),
        Place("crates/hall_*_tests/src/texts.rt", "ITEM"),
        Place("crates/hall_*_tests/src/streams.rt", "ITEM"),
        Place("tests/worked_tables.py", "ITEM"),
    ),
)

STATUSES = List(
    "status",
    (Place(f"{ENDINGS}/*.rt", r"(?:=>|u8 =) (?P<number>\d+)[,;]"),),
    (
        Place("docs/FORMATS.md", NUMBER_ROW, chapter("The exit statuses"), True),
        # (70 is the launcher's own)
        Place("docs/USING.md", NUMBER_ROW, chapter("When it stops"), True, besides=("70",)),
        Place("deploy/hall.1", r"^\.It (?P<number>\d+)$", whole=True),
    ),
)

ENDINGS_OF_JOBS = (
    List(
        "stop of a lane",
        (
            Place(f"{REPORTS}/lanes.rt", IN_BYTES, function("push_stop")),
            Place(f"{REPORTS}/lanes.rt", r'b"(?P<name>refused) ', function("push_refused")),
        ),
        (
            Place("docs/FORMATS.md", WORD_ROW, chapter("The line of a lane"), True),
            Place("deploy/hall.1", r"^\.Ql (?P<name>\w+)", r"^A lane has ended(.*?)^\.It", True),
            Place("www/standing.js", r'^  "state (?P<name>\w+)": ', whole=True),
        ),
    ),
    List(
        "stop of a door",
        (Place(f"{REPORTS}/doors.rt", IN_BYTES, function("door_word")),),
        (Place("docs/FORMATS.md", WORD_ROW, chapter("The line of a door"), True),),
    ),
    List(
        "stop of a lane that is early",
        (
            Place(
                "crates/call_endings/specs/Endings.antt",
                r"^is_early_stop \(?lane\.(?P<name>\w+).* = true",
            ),
        ),
        (
            Place(
                "docs/promises/transcript.md",
                IN_TICKS,
                r"^\| a lane with (.*?) \| 10 \|$",
                True,
            ),
        ),
    ),
    List(
        "status after which the service doesn't start",
        (Place("deploy/hall@.service", r"\b(?P<number>\d+)", r"^RestartPreventExitStatus=(.*?)$"),),
        (
            Place(
                "docs/OPERATING.md",
                r"\b(?P<number>\d+)",
                r"the statuses ([^.|]*?) the service",
                True,
            ),
        ),
    ),
)

OF_THE_PROGRAM = (
    ROUTES,
    FAULTS,
    *COMMANDS,
    CRATES,
    *OPTIONS,
    ENDS,
    HEADER,
    STATUSES,
    *ENDINGS_OF_JOBS,
)
