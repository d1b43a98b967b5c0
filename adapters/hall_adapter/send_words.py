"""The words of `hall-adapter send`, which are loaded without what it needs to work."""

import argparse


def add_words(words: argparse.ArgumentParser) -> None:
    """The words of the command line."""
    words.add_argument("port", type=int)
    words.add_argument("--host", default="127.0.0.1")
    words.add_argument("--first", type=int, default=1)
    words.add_argument("--seconds", type=float, default=5.0)
    words.add_argument("--book", help="a door, or the front, that is asked what the book has")
    words.add_argument("--lane", type=int, help="the lane whose packs are asked for")
    words.add_argument("--login", help="a file with NAME:PASSWORD, for the front")
