"""A disk that is slow to sync: FOLDER MEBIBYTES MILLISECONDS, as root.

Mounts a file system of one file, FOLDER/disk, over /dev/fuse. The file lies in memory; a sync of it
takes so many milliseconds. A loop device over the file takes each flush of its cache for a sync.
"""

import ctypes
import os
import stat
import struct
import sys
import time
from errno import ENOENT, ENOSYS
from typing import NamedTuple

LOOKUP, FORGET, GETATTR, SETATTR, OPEN, READ, WRITE, STATFS = 1, 2, 3, 4, 14, 15, 16, 17
RELEASE, FSYNC, FLUSH, INIT, OPENDIR, RELEASEDIR, INTERRUPT, BATCH_FORGET = (
    *(18, 20, 25, 26, 27, 29, 36, 42),
)
UNANSWERED = (FORGET, INTERRUPT, BATCH_FORGET)
IN_HEAD = struct.Struct("<IIQQ16x")
OUT_HEAD = struct.Struct("<IiQ")
WRITE_HEAD = 40
ROOT, DISK, NAME = 1, 2, b"disk"
MOST = 131_072


class Disk(NamedTuple):
    """The bytes of the file, and the seconds that a sync takes."""

    content: bytearray
    seconds: float

    def attributes(self, node: int) -> bytes:
        mode, size = (stat.S_IFDIR | 0o755, 0) if node == ROOT else (stat.S_IFREG | 0o600, None)
        size = len(self.content) if size is None else size
        times = (0, 0, 0, 0, 0, 0)
        return struct.pack("<6Q10I", node, size, size // 512, *times, mode, 1, 0, 0, 0, 4096, 0)

    def answer(self, code: int, node: int, given: bytes) -> bytes | int:
        """The answer to a request, or the number of its error."""
        if code == INIT:
            return struct.pack("<4I2H2I2H8I", 7, 31, MOST, 0, 16, 12, MOST, 1, 0, *[0] * 9)
        if code == LOOKUP:
            if given.rstrip(b"\0") != NAME:
                return ENOENT
            return struct.pack("<4Q2I", DISK, 0, 999, 999, 0, 0) + self.attributes(DISK)
        if code in (GETATTR, SETATTR):
            return struct.pack("<Q2I", 999, 0, 0) + self.attributes(node)
        if code in (OPEN, OPENDIR):
            return bytes(16)
        if code == STATFS:
            return bytes(80)
        return self.transfer(code, given)

    def transfer(self, code: int, given: bytes) -> bytes | int:
        if code == READ:
            place, size = struct.unpack_from("<8xQI", given)
            return bytes(self.content[place : place + size])
        if code == WRITE:
            place, size = struct.unpack_from("<8xQI", given)
            self.content[place : place + size] = given[WRITE_HEAD : WRITE_HEAD + size]
            return struct.pack("<2I", size, 0)
        if code == FSYNC:
            time.sleep(self.seconds)
            return b""
        return b"" if code in (FLUSH, RELEASE, RELEASEDIR) else ENOSYS


def serve(device: int, disk: Disk) -> None:
    """Answers the system's requests until the folder is unmounted."""
    while True:
        try:
            asked = os.read(device, MOST + 4096)
        except OSError:
            return
        _, code, unique, node = IN_HEAD.unpack_from(asked)
        if code in UNANSWERED:
            continue
        told = disk.answer(code, node, asked[IN_HEAD.size :])
        error, text = (-told, b"") if isinstance(told, int) else (0, told)
        os.write(device, OUT_HEAD.pack(OUT_HEAD.size + len(text), error, unique) + text)


def main() -> None:
    folder, mebibytes, milliseconds = sys.argv[1:]
    device = os.open("/dev/fuse", os.O_RDWR)
    options = f"fd={device},rootmode=40000,user_id=0,group_id=0"
    libc = ctypes.CDLL(None, use_errno=True)
    if libc.mount(b"slow", folder.encode(), b"fuse", 0, options.encode()) != 0:
        sys.exit(f"{folder} can't be mounted: {os.strerror(ctypes.get_errno())}")
    serve(device, Disk(bytearray(int(mebibytes) << 20), int(milliseconds) / 1000))


main()
