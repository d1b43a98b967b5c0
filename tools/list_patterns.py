"""How the tables of tools/lists find items: rows of pages, words of code, and parts of a file."""

# A row of a page's table that begins with a word or a number, or with a path.
WORD_ROW = r"^\| `(?P<name>\w+)"
NUMBER_ROW = r"^\| (?P<number>\d+) \|"
PATH_ROW = r"^\| `(?P<name>/\S*)`"

# A word of a page that stands as code.
IN_TICKS = r"`(?P<name>\w+)`"

# A word of a page for a browser, and the sentence for a refusal there.
KEY = r'^  "?(?P<name>[\w ]+)"?: '
SENTENCE_OF = r'^  \["(?P<name>\w+)",'

# A word in bytes that the code compares with another, one of a table, and several.
COMPARED = r'word == b"(?P<name>\w+)"'
IN_BYTES = r'b" ?(?P<name>\w+) ?"'
WORDS_IN_BYTES = r'b"(?P<name>[\w ]+)"'


def function(name: str) -> str:
    """The part of a file of code that is this function."""
    return rf"fn {name}\b(.*?)^\}}"


def table(name: str) -> str:
    """The part of a file of code that is this constant, of several lines."""
    return rf"const {name}\b(.*?)^\S*\];"


def method(name: str) -> str:
    """The part of a module in Python that is this method."""
    return rf"def {name}\(self(.*?)^    def "


def variants(name: str) -> str:
    """The part of a file of code that is this choice."""
    return rf"enum {name} \{{(.*?)^\}}"


def chapter(name: str) -> str:
    """The part of a page from this heading to the next one."""
    return rf"^#+ {name}\n(.*?)(?=^#+ |\Z)"
