"""Lines of weighing devices, drawn for tests: what each sends for a pack, spelled by hand and not
by the tables of adapters/devices, so that a table is held against something else."""

import functools
import operator


def in_frame(text: str) -> bytes:
    """A line in STX .. ETX."""
    return b"\x02" + text.encode("latin-1") + b"\x03"


def checked(text: str) -> bytes:
    """A line in STX .. ETX with its check character."""
    framed = in_frame(text)
    return framed + bytes([functools.reduce(operator.xor, framed[1:])])


def garvens(counter: int, mass: int, state: str = "V") -> bytes:
    """A record of Garvens: grams with one digit behind the point."""
    return checked(f"{counter:06};RICE250 ;+{mass // 1000:04}.{mass // 100 % 10};g ;{state}")


def ishida(counter: int, mass: int, state: str = "0") -> bytes:
    """A line of Ishida: grams with one digit behind the point."""
    grams = f"{mass // 1000:04}.{mass // 100 % 10}"
    return f"W,{counter:06},000012,+{grams},g,{state}\r\n".encode()


def bizerba(counter: int, mass: int, state: str = "OK") -> bytes:
    """A record of Bizerba: kilograms with four digits behind the comma."""
    kilograms = f"{mass // 1_000_000:2},{mass // 100 % 10_000:04}"
    return f"{counter:06};000000000012; {kilograms};kg;{state}\r\n".encode()


def ocs(counter: int, mass: int, state: str = "OK") -> bytes:
    """A telegram of OCS: grams with two digits behind the comma."""
    grams = f"{mass // 1000:04},{mass // 10 % 100:02}"
    return in_frame(f"#{counter:06} A0012 +{grams} g  {state}")


def minebea(counter: int, mass: int, state: str = "") -> bytes:
    """A print of Minebea: 20 signs and a line's end."""
    unit = "   " if state else "g  "
    return f"{counter:06}+{mass // 1000:6}.{mass // 10 % 100:02} {unit}\r\n".encode()


# For each device: a pack's line, and the state of one that is in motion.
DRAWN = {
    "garvens": (garvens, "M"),
    "ishida": (ishida, "7"),
    "bizerba": (bizerba, "MO"),
    "ocs": (ocs, "MV"),
    "minebea": (minebea, "motion"),
}
