"""Bytes of a device over TCP, as they come: this connects to the device, or the device to this.

A connection that broke off is made again. Of devices that connect to this the newest one is heard,
since one that was cut off without a word connects anew."""

import asyncio
import os
import socket
from collections.abc import AsyncIterator

from hall_adapter.readings import Linked
from hall_adapter.settings import Source
from hall_adapter.tables import address_of

# Seconds until a connection is tried again.
RETRY = 0.5
PIECE = 4096
# A device that is gone without a word is noticed after so many seconds of silence.
IDLE, PROBES = 5, 3


def keep_alive(link: socket.socket) -> None:
    """Has the system ask a silent device whether it is there."""
    link.setsockopt(socket.SOL_SOCKET, socket.SO_KEEPALIVE, 1)
    link.setsockopt(socket.IPPROTO_TCP, socket.TCP_KEEPIDLE, IDLE)
    link.setsockopt(socket.IPPROTO_TCP, socket.TCP_KEEPINTVL, 1)
    link.setsockopt(socket.IPPROTO_TCP, socket.TCP_KEEPCNT, PROBES)


async def read_on(reader: asyncio.StreamReader) -> AsyncIterator[bytes]:
    """What comes, until the connection is at its end."""
    while True:
        try:
            piece = await reader.read(PIECE)
        except OSError:
            return
        if not piece:
            return
        yield piece


def why_of(error: OSError) -> str:
    """Why there is no connection, as the system says it."""
    return os.strerror(error.errno) if error.errno and error.errno > 0 else str(error)


async def connected(source: Source) -> AsyncIterator[bytes | Linked]:
    """What a device says to which this connects; and where a connection is made, can't be, or broke
    off."""
    host, port = address_of(source.tcp)
    while True:
        try:
            reader, writer = await asyncio.open_connection(host, port)
        except OSError as error:
            yield Linked(False, f"{source.tcp}: {why_of(error)}")
            await asyncio.sleep(RETRY)
            continue
        keep_alive(writer.get_extra_info("socket"))
        yield Linked(True)
        async for piece in read_on(reader):
            yield piece
        writer.close()
        yield Linked(False, f"{source.tcp} left the connection")
        await asyncio.sleep(RETRY)


async def accepted(source: Source) -> AsyncIterator[bytes | Linked]:
    """What a device says that connects to this; and where a connection begins, or broke off."""
    host, port = address_of(source.listen)
    said: asyncio.Queue[bytes | Linked] = asyncio.Queue()
    newest: list[asyncio.StreamWriter] = []

    async def take(reader: asyncio.StreamReader, writer: asyncio.StreamWriter) -> None:
        while newest:
            newest.pop().close()
        newest.append(writer)
        keep_alive(writer.get_extra_info("socket"))
        said.put_nowait(Linked(True))
        async for piece in read_on(reader):
            if newest and newest[0] is writer:
                said.put_nowait(piece)
        writer.close()
        if newest and newest[0] is writer:
            said.put_nowait(Linked(False, "it left the connection"))

    async with await asyncio.start_server(take, host, port):
        while True:
            yield await said.get()


def tcp_pieces(source: Source) -> AsyncIterator[bytes | Linked]:
    """What a device says over TCP."""
    return connected(source) if source.tcp else accepted(source)
