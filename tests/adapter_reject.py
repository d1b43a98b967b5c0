"""Rejects that are confirmed, and those that aren't, which stop the gate. For tests/adapters.py."""

import os
import time

from adapter_modbus import MODBUS_PORT, ModbusDevice, modbus_line
from adapter_room import Room, open_line, piles_of, say, settled, wait_until
from clients import need
from drawn import garvens

GOOD, LIGHT = 262_000, 230_000
# Seconds in which a pack is behind the reject, and its gate may open: on a machine where much else
# runs a program may stand still for some.
LATEST, WITHIN = 12.0, 30.0
# Seconds that a pack takes to the reject: it isn't seen there earlier than the line's `earliest`.
ON_ITS_WAY = 0.05


def last_stop(room: Room) -> str | None:
    """What the newest stop of a lane says of its gate."""
    stops = [row.act["prior"] for row in room.all_rows() if row.act["act"] == "stop"]
    return stops[-1] if stops else None


def check_wrong(program: str, folder: str, packs: int, seed: str) -> None:
    """Over Modbus: a pack that passed and is seen behind the reject stops the gate. The book takes
    it back by a desk, and the next pack that passes is told to have stayed."""
    room = Room(program, f"{folder}/wrong", 1)
    room.start()
    device = ModbusDevice("tcp", str(MODBUS_PORT))
    device.put()
    desk = '[desk]\nurl = "http://127.0.0.1:8471"\nnumber = 163\n'
    more = f"within = {WITHIN}\n[reject]\nearliest = 0.01\nlatest = {LATEST}\n{desk}"
    line = modbus_line(room, f'tcp = "127.0.0.1:{MODBUS_PORT}"', more)
    wait_until(lambda: line.metric("hall_line_device_linked") == 1, "the device is there")
    device.pack(LIGHT)
    wait_until(lambda: line.metric("hall_line_packs_total", "reject") == 1, "a reject")
    time.sleep(ON_ITS_WAY)
    device.rejected()
    wait_until(lambda: line.metric("hall_line_rejects_confirmed_total") == 1, "it is confirmed")
    need(line.metric("hall_line_stopped") == 0, f"the gate is stopped: {line.said()}")
    # the pack before it isn't due any more, so that this one is taken for nothing else
    time.sleep(LATEST + 0.2)
    device.pack(GOOD)
    wait_until(lambda: len(device.opened()) == 1, "a pack is let out")
    device.rejected()
    wait_until(lambda: line.metric("hall_line_stopped") == 1, "the gate is stopped")
    wrong = room.rows(1)[-1].number
    device.pack(GOOD + 100)
    wait_until(lambda: last_stop(room) == "stayed", "the pack behind it is told to have stayed")
    wait_until(
        lambda: {"act": "void", "pack": wrong} in [row.act for row in room.all_rows()],
        f"row {wrong} is voided: {line.said()}",
    )
    need(len(device.opened()) == 1, "a stopped gate opened")
    piles = piles_of(room.all_rows())
    need(
        [piles.packs[row.number][0] for row in room.rows(1)] == ["rejected", "voided", "rejected"],
        f"the piles are {piles.packs}",
    )
    need(line.notes()["wrong"] == 1 and line.notes()["stopped"] == 1, f"{line.notes()}")
    say(
        "a pack that passed and was seen behind the reject stopped the gate, and was voided by desk"
        " 163; the next one stands as stayed"
    )
    line.end()
    device.end()
    room.stop()


def check_escaped(program: str, folder: str, packs: int, seed: str) -> None:
    """By pulses of a command: a pack that was rejected and isn't seen stops the gate."""
    room = Room(program, f"{folder}/escaped", 1)
    room.start()
    pulses, mails = f"{room.folder}/pulses", f"{room.folder}/mails"
    os.mkfifo(pulses)
    photocell = os.open(pulses, os.O_RDWR)
    more = (
        f"within = {WITHIN}\n[reject]\nearliest = 0.01\nlatest = {LATEST}\n"
        f'pulses = ["cat", "{pulses}"]\n'
        f'[alarm]\ncommand = ["sh", "-c", "cat >>{mails}"]\nevery = 600\n'
    )
    line, way = open_line(room, "serial", "garvens", 1, more)
    for counter in (1, 2):
        way.send(garvens(counter, LIGHT))
        wait_until(lambda: line.metric("hall_line_packs_total", "reject") == counter, "a reject")
        time.sleep(ON_ITS_WAY)
        os.write(photocell, b"edge\n")
        wait_until(
            lambda: line.metric("hall_line_rejects_confirmed_total") == counter,
            lambda: f"reject {counter} is confirmed: {line.said()}, {line.notes()}",
        )
    way.send(garvens(3, LIGHT))
    wait_until(lambda: line.metric("hall_line_stopped") == 1, "the gate is stopped")
    # no pack has passed yet, so the hall hasn't the gate open: the first that does is to be voided
    way.send(garvens(4, GOOD))
    wait_until(lambda: line.notes()["void"] == 1, "the pack behind it is to be voided")
    way.send(garvens(5, GOOD))
    wait_until(lambda: last_stop(room) == "stayed", "the next one is told to have stayed")
    line.read_gate()
    need(not line.opened, "a stopped gate opened")
    wait_until(lambda: os.path.exists(mails), "an alarm")
    settled(lambda: os.path.getsize(mails))
    with open(mails, encoding="utf-8") as source:
        kinds = [text.split(": ")[1] for text in source]
    need(len(kinds) == len(set(kinds)) and {"escaped", "stopped"} <= set(kinds), f"alarms {kinds}")
    say(
        "a pack that was rejected and not seen stopped the gate; of the next two that passed one"
        " was reported to be voided, and one stands as stayed; alarms"
        f" {', '.join(kinds)}, once each"
    )
    line.end()
    room.stop()
