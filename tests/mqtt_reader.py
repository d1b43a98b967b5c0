"""Takes messages down, a line each: `TOPIC TEXT`. For tests/adapters.py.

    mqtt_reader.py PORT TOPIC"""

import sys

from paho.mqtt.client import Client


def main(port, topic):
    client = Client()
    client.on_connect = lambda *_: client.subscribe(topic, qos=1)
    client.on_subscribe = lambda *_: print("subscribed", flush=True)
    client.on_message = lambda _client, _data, message: print(
        message.topic, message.payload.decode(), flush=True
    )
    client.connect("127.0.0.1", int(port))
    client.loop_forever()


main(*sys.argv[1:])
