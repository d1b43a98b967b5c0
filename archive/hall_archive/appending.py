"""Files that are only appended to: synced, and whole where the disk is full or a kill cut a
line."""

import errno
import os


def append(path: str, text: str) -> None:
    """Appends a text and syncs it. OSError where that can't be done: the file is as it was."""
    data = text.encode("utf-8")
    file = os.open(path, os.O_WRONLY | os.O_APPEND | os.O_CREAT, 0o640)
    try:
        size = os.fstat(file).st_size
        try:
            if os.write(file, data) < len(data):
                raise OSError(errno.ENOSPC, os.strerror(errno.ENOSPC), path)
            os.fsync(file)
        except OSError:
            os.ftruncate(file, size)
            raise
    finally:
        os.close(file)


def whole_lines(path: str) -> str:
    """The whole lines of a file, "" where there is none; a last one that a kill has cut is taken
    off it."""
    try:
        with open(path, encoding="utf-8", newline="") as file:
            text = file.read()
    except FileNotFoundError:
        return ""
    whole = text[: text.rfind("\n") + 1]
    if whole != text:
        os.truncate(path, len(whole.encode("utf-8")))
    return whole
