"""A device over Modbus TCP or RTU: polled by a thread of its own, by a map (`register_maps`).

Needs python3-pymodbus of Debian, and over a serial line python3-serial. The thread polls all
registers of the map in one request. Between two polls it sets the gate's coil, and the register of
the filler where it has one, as soon as it is told to. The coil is cleared when its pulse is over,
and where the link is made anew."""

import logging
import queue
import threading
import time
from collections.abc import Callable
from typing import Any

from hall_adapter.register_maps import Link, RegisterMap
from hall_adapter.tables import BadTable, address_of

# Seconds until a link is tried again.
RETRY = 0.5
WORD = 65_536
PACKAGES = "Debian's packages python3-pymodbus, python3-serial and python3-serial-asyncio"

# What the thread is told to do: to let a pack out, or to write advice.
Order = tuple[str, int]


class LastError(logging.Handler):
    """Keeps the last error that pymodbus tells its log, and nobody else."""

    def __init__(self) -> None:
        super().__init__(logging.ERROR)
        self.text = ""

    def emit(self, record: logging.LogRecord) -> None:
        """Takes an error."""
        self.text = record.getMessage()


class LinkFault(Exception):
    """The device doesn't answer, or answers with a fault."""


def client_of(link: Link) -> Any:
    """A client of pymodbus."""
    try:
        from pymodbus.client import ModbusSerialClient, ModbusTcpClient  # type: ignore[import]
    except ImportError:
        raise BadTable(f"a map needs {PACKAGES}") from None
    ways = {"timeout": link.timeout, "retries": 0}
    if link.tcp:
        host, port = address_of(link.tcp)
        return ModbusTcpClient(host, port, **ways)
    return ModbusSerialClient(
        link.serial, baudrate=link.baud, parity=link.parity, stopbits=link.stop, **ways
    )


class Poller(threading.Thread):
    """Polls a device, and tells its words, that the link broke off, and what became of orders."""

    def __init__(
        self,
        made: RegisterMap,
        on_words: Callable[[list[int]], object],
        on_cut: Callable[[str], object],
        on_failed: Callable[[Order], object],
        client: Any = None,
    ) -> None:
        super().__init__(daemon=True)
        self.map = made
        self.on_words = on_words
        self.on_cut = on_cut
        self.on_failed = on_failed
        self.client = client or client_of(made.link)
        self.errors = LastError()
        self.orders: queue.SimpleQueue[Order] = queue.SimpleQueue()
        self.shut_at: float | None = None
        self.ending = threading.Event()

    def order(self, what: str, number: int) -> None:
        """Tells the thread to do something: `open` for a pack, or `advise` by so much."""
        self.orders.put((what, number))

    def run(self) -> None:
        """Polls until it is told to end."""
        log = logging.getLogger("pymodbus")
        log.propagate = False
        log.handlers = [self.errors]
        while not self.ending.is_set():
            try:
                if not self.client.connect():
                    raise LinkFault(self.errors.text or "no connection")
                self.set_coil(False)
                self.work()
            except Exception as fault:  # pymodbus raises what it likes: struct.error among others
                self.client.close()
                self.on_cut(str(fault) or type(fault).__name__)
                self.fail_orders()
                self.ending.wait(RETRY)
        self.client.close()

    def work(self) -> None:
        """Polls and does what it is told, until the link breaks off."""
        while not self.ending.is_set():
            self.on_words(self.read())
            self.shut_in_time()
            try:
                self.do(self.orders.get(timeout=self.map.link.period))
            except queue.Empty:
                pass

    def do(self, order: Order) -> None:
        """Does an order; one that fails is told, and the link is made anew."""
        try:
            what, number = order
            if what == "open":
                self.set_coil(True)
                self.shut_at = time.monotonic() + self.map.pulse
            else:
                self.write(number)
        except Exception:
            self.on_failed(order)
            raise

    def fail_orders(self) -> None:
        """What was ordered while the link is away isn't done."""
        while not self.orders.empty():
            self.on_failed(self.orders.get())

    def shut_in_time(self) -> None:
        """Clears the coil once its pulse is over."""
        if self.shut_at is not None and time.monotonic() >= self.shut_at:
            self.set_coil(False)
            self.shut_at = None

    def read(self) -> list[int]:
        """The words of all registers."""
        link = self.map.link
        is_input = link.table == "input"
        call = self.client.read_input_registers if is_input else self.client.read_holding_registers
        answer = self.checked(call(self.map.first(), self.map.count(), slave=link.unit))
        words: list[int] = answer.registers
        if len(words) != self.map.count():
            raise LinkFault("an answer of another length")
        return words

    def set_coil(self, is_open: bool) -> None:
        """Sets or clears the gate's coil, where there is one."""
        if self.map.gate is not None:
            unit = self.map.link.unit
            self.checked(self.client.write_coil(self.map.gate, is_open, slave=unit))

    def write(self, value: int) -> None:
        """Writes advice in hundredths of a gram, as a number of 16 bits with a sign."""
        if self.map.advice is not None:
            unit = self.map.link.unit
            steps = max(-WORD // 2, min(WORD // 2 - 1, round(value / 10))) % WORD
            self.checked(self.client.write_register(self.map.advice, steps, slave=unit))

    def checked(self, answer: Any) -> Any:
        """An answer that is no fault."""
        if answer is None or answer.isError():
            raise LinkFault(f"it answers {answer}")
        return answer
