"""Messages over MQTT, by python3-paho-mqtt of Debian.

Below the line's topic: `pack` (a JSON object for each judged pack), `report` (for each report),
`advice` (grams, to the filler), `state` (`running` or `stopped`, retained) and `online` (`1`, or
`0` by the broker once the line is gone; retained). A broker that is away is told and tried again;
meanwhile messages wait, up to a bound, behind which they are dropped and counted.
"""

import json
import sys
from typing import Any

from hall_adapter.lanes import Pack
from hall_adapter.readings import Note, spell
from hall_adapter.settings import Broker
from hall_adapter.tables import BadTable, reason_of

# So many messages wait for a broker that is away.
MOST_WAITING = 1_000
# What paho says of a message on top of these.
NO_PLACE = 15
KEEP_ALIVE = 20
RETRY = 5


def pack_message(pack: Pack, passed: bool) -> dict[str, Any]:
    """What is said of a judged pack."""
    message: dict[str, Any] = {
        "pack": pack.number,
        "row": pack.row,
        "gross": float(spell(pack.reading.mass)),
        "signal": "pass" if passed else "reject",
        "opened": pack.let_out,
    }
    if pack.reading.counter is not None:
        message["counter"] = pack.reading.counter
    if pack.reading.article is not None:
        message["article"] = pack.reading.article
    return message


def client_of(broker: Broker, name: str) -> Any:
    """A client of paho, which connects in a thread of its own."""
    try:
        from paho.mqtt.client import Client
    except ImportError:
        raise BadTable("[mqtt] needs Debian's package python3-paho-mqtt") from None
    client = Client(client_id=f"hall-{name}", clean_session=True)
    client.max_queued_messages_set(MOST_WAITING)
    client.reconnect_delay_set(1, RETRY)
    client.will_set(f"{broker.topic}/online", "0", qos=1, retain=True)
    if broker.user:
        client.username_pw_set(broker.user, password_of(broker.password_file))
    return client


def password_of(path: str) -> str:
    """The password in a file."""
    try:
        with open(path, encoding="utf-8") as source:
            return source.read().strip()
    except (OSError, ValueError) as error:
        raise BadTable(f"[mqtt]: {reason_of(path, error)}") from None


def tell(text: str) -> None:
    """Says something on standard error."""
    print(f"mqtt: {text}", file=sys.stderr, flush=True)


class Messages:
    """Says what happens at a line to a broker."""

    def __init__(self, broker: Broker, name: str) -> None:
        self.topic = broker.topic
        self.state = "running"
        self.is_away: bool | None = None
        self.dropped = 0
        self.client = client_of(broker, name)
        self.client.on_connect = self.connected
        self.client.on_disconnect = self.client.on_connect_fail = self.away
        self.client.connect_async(broker.host, broker.port, KEEP_ALIVE)
        self.client.loop_start()

    def connected(self, _client: Any, _data: Any, _flags: Any, status: int) -> None:
        """The broker answered: it is told that the line is here, and its state."""
        if status:
            tell(f"the broker refuses with {status}")
            return
        dropped, self.dropped = self.dropped, 0
        if self.is_away:
            tell(f"the broker is there again, and {dropped} messages were dropped")
        self.is_away = False
        self.say("online", "1", retain=True)
        self.say("state", self.state, retain=True)

    def away(self, *_: Any) -> None:
        """The broker isn't reached, which is told once."""
        if not self.is_away:
            tell("the broker is away")
        self.is_away = True

    def say(self, below: str, text: str, retain: bool = False) -> None:
        """Says a message, at least once."""
        said = self.client.publish(f"{self.topic}/{below}", text, qos=1, retain=retain)
        if said.rc == NO_PLACE:
            self.dropped += 1

    def pack(self, pack: Pack, passed: bool) -> None:
        """A pack was judged."""
        self.say("pack", json.dumps(pack_message(pack, passed)))

    def report(self, note: Note) -> None:
        """Something was reported."""
        said = {"kind": note.kind, "text": note.text, "count": note.count}
        self.say("report", json.dumps(said))

    def set_state(self, state: str) -> None:
        """The line runs, or is stopped."""
        self.state = state
        self.say("state", state, retain=True)

    def end(self) -> None:
        """The line goes, and says so."""
        # a broker that is left isn't one that goes away
        self.is_away = True
        self.say("online", "0", retain=True)
        self.client.disconnect()
        self.client.loop_stop()
