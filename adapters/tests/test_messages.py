"""Messages over MQTT: a broker that is away is told once, and what is dropped meanwhile is counted."""

import io
import unittest
from contextlib import redirect_stderr
from typing import Any
from unittest import mock

from hall_adapter import messages
from hall_adapter.settings import Broker

BROKER = Broker("127.0.0.1", 1883, "hall/line-1", "", "")
ROOM = 3


class Client:
    """A client in the place of paho's, with room for a few messages while the broker is away."""

    def __init__(self) -> None:
        self.waiting: list[str] = []
        self.on_connect: Any = None
        self.on_disconnect: Any = None

    def publish(self, topic: str, text: str, qos: int, retain: bool) -> Any:
        """Takes a message, where there is room."""
        if len(self.waiting) >= ROOM:
            return mock.Mock(rc=messages.NO_PLACE)
        self.waiting.append(f"{topic} {text}")
        return mock.Mock(rc=0)

    def connect_async(self, *_: Any) -> None:
        """Begins to connect."""

    def loop_start(self) -> None:
        """Begins its thread."""


class Away(unittest.TestCase):
    """A broker that is away."""

    def test_it_is_told_once_and_what_is_dropped_is_counted(self) -> None:
        client, told = Client(), io.StringIO()
        with mock.patch.object(messages, "client_of", lambda *_: client), redirect_stderr(told):
            said = messages.Messages(BROKER, "line-1")
            client.on_connect(None, None, None, 0)
            client.waiting.clear()
            for _ in range(3):
                client.on_disconnect(None, None, 1)
            for place in range(5):
                said.say("advice", str(place))
            client.waiting.clear()
            client.on_connect(None, None, None, 0)
            client.waiting.clear()
            client.on_disconnect(None, None, 1)
            client.on_connect(None, None, None, 0)
            client.on_connect(None, None, None, 5)
        self.assertEqual(
            told.getvalue().splitlines(),
            [
                "mqtt: the broker is away",
                "mqtt: the broker is there again, and 2 messages were dropped",
                "mqtt: the broker is away",
                "mqtt: the broker is there again, and 0 messages were dropped",
                "mqtt: the broker refuses with 5",
            ],
        )
        self.assertEqual(client.waiting, ["hall/line-1/online 1", "hall/line-1/state running"])


if __name__ == "__main__":
    unittest.main()
