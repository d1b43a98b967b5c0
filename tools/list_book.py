"""The lists of the book, and where else they stand: refusals, acts, questions, words of answers."""

from list_parts import List, Place
from list_patterns import (
    COMPARED,
    IN_BYTES,
    IN_TICKS,
    KEY,
    NUMBER_ROW,
    SENTENCE_OF,
    WORD_ROW,
    WORDS_IN_BYTES,
    chapter,
    function,
    method,
    table,
    variants,
)

WORDS = "crates/book_words/src"
WORD_SPECS = "crates/book_words/specs"
SCRIPT = "crates/script_lines/src"
TEXTS = "crates/book_texts/src"

REFUSALS = (
    List(
        "refusal",
        (Place(f"{WORDS}/refusal.rt", r"::(?P<name>\w+)(?: \{.*?\})? => (?P<number>\d+),"),),
        (
            Place(
                "docs/RULES.md",
                r"^\| (?P<number>\d+) \| `(?P<name>\w+)`",
                chapter("Refusals"),
                True,
                True,
            ),
            Place(
                "crates/book_core_tests/src/names.rt",
                r"\(\s*(?P<number>\d+),\s*Refusal::(?P<name>\w+)",
                whole=True,
            ),
            Place("crates/plain_book_tests/src/met.rt", r"SIGNALS: usize = (?P<count>\d+)", more=1),
        ),
    ),
    List(
        "refusal's name",
        (Place(f"{WORDS}/refusal.rt", r"Refusal::(?P<name>\w+)", function("number")),),
        (
            Place("www/refusals_en.js", SENTENCE_OF, whole=True, ordered=True),
            Place("www/refusals_de.js", SENTENCE_OF, whole=True, ordered=True),
            Place(
                "crates/run_notices/src/meanings.rt",
                r"Refusal::(?P<name>\w+)",
                whole=True,
                ordered=True,
            ),
            # no line has a day that isn't in range
            Place("tests/days/*.txt", r"refused \d+ (?P<name>\w+)", without=("dayrange",)),
        ),
    ),
    List(
        "refusal that keeps something",
        (Place(f"{WORDS}/refusal.rt", r"^    (?P<name>\w+) \{", variants("Refusal")),),
        (
            Place(
                "docs/RULES.md", r"^\| \d+ \| `(?P<name>\w+)` \| [^| ]", chapter("Refusals"), True
            ),
            Place(
                "crates/batch_reports/src/refusals.rt",
                r"Refusal::(?P<name>\w+) \{",
                function("push_kept"),
                True,
            ),
        ),
    ),
)

ACTS_AND_QUESTIONS = (
    List(
        "line of a script",
        (Place(f"{SCRIPT}/verbs.rt", COMPARED), Place(f"{SCRIPT}/questions.rt", COMPARED)),
        (
            Place("docs/FORMATS.md", WORD_ROW, chapter("The script"), True),
            Place("crates/bad_lines/src/forms.rt", IN_BYTES, whole=True, besides=("work",)),
            Place("crates/script_lines_tests/src/*.rt", r'b"(?:@\d+ \d+ )?(?P<name>[a-z]+)\b'),
            Place("tests/days/*.txt", r"^(?:@\d+ \d+ )?(?P<name>[a-z]+)\b"),
        ),
    ),
    List(
        "act by script",
        (Place(f"{SCRIPT}/verbs.rt", COMPARED),),
        (
            Place("crates/bad_lines/src/forms.rt", IN_BYTES, table("ACTS"), True),
            Place("crates/bad_lines/src/setup_lines.rt", IN_BYTES, table("ACTS"), True),
            Place("tests/rows.py", r'^ +\d+: \("(?P<name>\w+)"', whole=True),
            # (measurements follow a draw there)
            Place(
                "tests/drawn_books.py", r'^ +"(?P<name>\w+)": \(\d', without=("measure", "second")
            ),
            Place("deploy/in_force.py", r'[\[|] ?"(?P<name>\w+)"', method("act"), True),
            Place(
                "archive/hall_archive/rows.py", r'^    "(?P<name>\w+)": lambda words', whole=True
            ),
            Place("docs/RULES.md", r"^\*\*Acts\.\*\* There are (?P<count>\w+)"),
            Place("docs/RULES.md", r'^"All" are all (?P<count>\w+) acts'),
            Place("docs/promises/book.md", r"\bfor all (?P<count>\w+) acts"),
            # (a product has two lines)
            Place("docs/FORMATS.md", r"^The first (?P<count>\w+) are acts", more=1),
        ),
    ),
    List(
        "question by script",
        (Place(f"{SCRIPT}/questions.rt", COMPARED),),
        (
            Place("docs/FORMATS.md", WORD_ROW, chapter("The output"), True),
            Place("docs/FORMATS.md", r"\bacts, the last (?P<count>\w+) questions"),
            Place("docs/RULES.md", r"^\*\*Questions\.\*\* There are (?P<count>\w+)"),
        ),
    ),
    List(
        "act of a desk",
        (Place("crates/office_wire/src/acts.rt", COMPARED),),
        (
            # (its table's head has a word)
            Place("docs/FORMATS.md", WORD_ROW, chapter("Acts"), True, besides=("act",)),
            Place("www/forms.js", r"^  (?P<name>\w+): \{ fields", whole=True),
            Place("www/acts.js", r'"(?P<name>\w+)"', r"ACT_NAMES = \[(.*?)\];", True),
            Place("www/acts_en.js", r'^  "act\.(?P<name>\w+)": ', whole=True),
            Place("www/acts_de.js", r'^  "act\.(?P<name>\w+)": ', whole=True),
            Place(
                "tests/office.sh",
                r"""^ *act (?:\$\(\(.*\)\)|\S+) ['"\\]+(?P<name>\w+)""",
                whole=True,
            ),
        ),
    ),
    List(
        "act",
        (Place(f"{WORDS}/act.rt", r"^    (?P<name>\w+) \{", variants("Act")),),
        (
            Place("crates/row_format_tests/src/*.rt", r"Act::(?P<name>\w+)", whole=True),
            Place("crates/plain_book_tests/src/drawn_acts.rt", r"Act::(?P<name>\w+)", whole=True),
        ),
    ),
    List(
        "kind of a row",
        (Place("crates/row_format/src/codes.rt", r"(?P<number>\d+) => .*", function("kind_at")),),
        (
            Place("docs/FORMATS.md", NUMBER_ROW, r"^\| kind \| act(.*?)\n\n", True),
            Place("tests/rows.py", r'^ +(?P<number>\d+): \("', whole=True),
        ),
    ),
)

QUESTION = List(
    "question",
    (Place(f"{WORDS}/act.rt", r"^    (?P<name>\w+)\b.*,$", variants("Question")),),
    (
        Place("crates/book_core_tests/src/calls.rt", r"Question::(?P<name>\w+)", whole=True),
        Place("crates/plain_book_tests/src/drawn_acts.rt", r"Question::(?P<name>\w+)", whole=True),
        Place(
            "crates/plain_book_tests/src/met.rt",
            r"Reply::(?P<name>\w+)(?:Is|Are)\(",
            whole=True,
        ),
        Place("crates/office_wire_tests/src/*.rt", r"Question::(?P<name>\w+)", whole=True),
        Place("docs/promises/book.md", r"\band all (?P<count>\w+) questions"),
    ),
)

OF_QUESTIONS = (
    QUESTION,
    List(
        "question that takes memory",
        (
            Place(
                f"{WORD_SPECS}/Views.antt",
                r"takes_memory \((?P<name>\w+).*true",
            ),
        ),
        (
            Place(
                "docs/promises/book.md",
                IN_TICKS,
                r"for\s+the\s+questions(.*?)\(`takes_memory`",
                True,
            ),
            # (`acts` asks for rows; a shipment is asked by the office alone)
            Place(
                "docs/FORMATS.md",
                IN_TICKS,
                r"^\| 7 \|[^|]* of a row, (.*?);",
                True,
                without=("rows", "shipment"),
                besides=("acts",),
            ),
        ),
    ),
    List(
        "answer of the office in bytes",
        (
            Place(
                "crates/office_responses/src/replies.rt",
                r"Reply::(?P<name>\w+?)Is\(_\).* => Media::Octets",
                function("answer_media"),
            ),
        ),
        (
            Place(
                "docs/FORMATS.md",
                r"\ba (?P<name>\w+) as `application/octet-stream`",
                r"^\| the answer to a question \|(.*?)$",
                True,
            ),
        ),
    ),
)

# The words of answers: signals, classes, piles, states and modes; and those of a verdict.
ANSWERS = (
    List(
        "word of an answer",
        (
            Place(f"{TEXTS}/words.rt", r'=> b"(?P<name>\w[\w ]+)"'),
            Place(f"{TEXTS}/verdicts.rt", IN_BYTES),
        ),
        (
            Place("www/words_en.js", KEY, without=("keep", "destroy")),
            Place("www/words_de.js", KEY, without=("keep", "destroy")),
        ),
    ),
    List(
        "word of a pack",
        (
            Place(
                f"{TEXTS}/words.rt", r'=> b"(?:reject )?(?P<name>\w+)"', function("signal_words")
            ),
            Place(f"{TEXTS}/words.rt", IN_BYTES, function("class_word")),
            Place(f"{TEXTS}/words.rt", IN_BYTES, function("pile_word")),
            Place(f"{TEXTS}/words.rt", IN_BYTES, function("state_word")),
            Place(f"{TEXTS}/verdicts.rt", IN_BYTES),
        ),
        (Place("docs/FORMATS.md", r"`(?:reject )?ITEM`", chapter("The output")),),
    ),
    List(
        "signal",
        (Place(f"{TEXTS}/words.rt", WORDS_IN_BYTES, function("signal_words")),),
        (
            Place(
                "docs/RULES.md",
                r"^\| (?P<name>[a-z ]+) \|",
                r"^\| signal \| where \|(.*?)\n\n",
                True,
            ),
        ),
    ),
    List(
        "pile",
        (Place(f"{TEXTS}/words.rt", IN_BYTES, function("pile_word")),),
        (Place("docs/RULES.md", r"^\| (?P<name>\w+) \|", r"^\| pile \| where \|(.*?)\n\n", True),),
    ),
)

OF_THE_BOOK = (*REFUSALS, *ACTS_AND_QUESTIONS, *OF_QUESTIONS, *ANSWERS)
