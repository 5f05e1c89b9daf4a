"""A bridge to MQTT: devices of a node that are topics, and the states that a node shows as topics.

usage: mqtt_bridge.py devices CONSOLE MAP HOST:PORT
       mqtt_bridge.py states CONSOLE HOST:PORT [PREFIX]

CONSOLE is a node's console, a path or A.B.C.D:PORT; HOST:PORT is the broker. The head of tools/devices.py has the
lines of a MAP. In `device PIXEL_HV trk/hv/1` the last word is a topic. The hardware publishes its state as a retained
message at trk/hv/1/state, and takes commands at trk/hv/1/command. A state that is not listed is that of hardware that
is away, so let the last will of the hardware be such a word, retained. Devices are away too while the broker is. A
command that comes while the broker is away is told on standard error, and never given.

`states` publishes the newest state of each object that the station keeps or watches, retained, at PREFIX/NAME. PREFIX
is smi if none is given. At PREFIX/online is 1, or 0 if the node does not answer or the bridge has ended (its last
will).

It needs Paho (Debian: python3-paho-mqtt).
"""

import os
import sys
import threading
import time

sys.path.insert(0, os.path.dirname(os.path.abspath(__file__)))

from paho.mqtt import client as paho

import devices
import lunskaf

# How often it is looked whether the node answers, and how long the node has for that, in seconds.
PERIOD, PATIENCE = 1.0, 3.0


class Away(Exception):
    """The broker does not answer, or the hardware has not published a state."""


def connected(where, will=None):
    """Returns a client that goes on connecting with the broker, and tells it its last will, a topic and a word."""
    # since version 2 the form of callbacks has to be named
    versions = getattr(paho, "CallbackAPIVersion", None)
    client = paho.Client(versions.VERSION1) if versions else paho.Client()
    if will is not None:
        client.will_set(*will, qos=1, retain=True)
    host, _, port = where.rpartition(":")
    client.reconnect_delay_set(1, 2)
    client.connect_async(host, int(port), keepalive=5)
    return client


class Topic:
    """Hardware behind a topic, with the word that it has published last."""

    def __init__(self, client, topic):
        self.client, self.topic, self.word = client, topic, None

    def state(self):
        if not self.client.is_connected():
            raise Away("the broker does not answer")
        if self.word is None:
            raise Away("nothing is published at %s/state" % self.topic)
        return self.word

    def command(self, word):
        # by quality 0, because Paho keeps any other message, and gives it whenever the broker is back
        told = self.client.publish(self.topic + "/command", word, qos=0)
        if told.rc != paho.MQTT_ERR_SUCCESS:
            raise Away("the broker does not answer")


def bridge_devices(console, path, where):
    """Runs until it is ended."""
    client = connected(where)
    found = [(name, kind, Topic(client, topic)) for name, kind, topic in devices.read_map(path)]
    kept = {}

    def on_connect(*_):
        for _, _, hardware in found:
            client.subscribe(hardware.topic + "/state", qos=1)

    def on_message(_, __, message):
        for name, _, hardware in found:
            if message.topic == hardware.topic + "/state":
                hardware.word = message.payload.decode("ascii", "replace")
                kept[name].look_soon()

    def on_disconnect(*_):
        # what was published before may no longer be so: the broker tells it again
        for name, _, hardware in found:
            hardware.word = None
            kept[name].look_soon()

    def begin(made):
        kept.update(made)
        client.on_connect, client.on_message, client.on_disconnect = on_connect, on_message, on_disconnect
        client.loop_start()

    devices.keep(console, found, on_made=begin)


def publish_online(client, node, topic):
    """Publishes whether the node answers, without end."""
    while True:
        try:
            node.counts()
            word = "1"
        except lunskaf.AWAY:
            word = "0"
        if client.is_connected():
            client.publish(topic, word, qos=1, retain=True)
        time.sleep(PERIOD)


def publish_states(console, where, prefix):
    """Runs until it is ended."""
    client = connected(where, will=(prefix + "/online", "0"))
    states, turn = {}, threading.Lock()

    def publish(name):
        client.publish("%s/%s" % (prefix, name), states[name], qos=1, retain=True)

    def on_connect(*_):
        # a broker that was started again has forgotten them
        with turn:
            for name in states:
                publish(name)

    client.on_connect = on_connect
    client.loop_start()
    with lunskaf.Node(console, PATIENCE) as node:
        threading.Thread(target=publish_online, args=(client, node, prefix + "/online"), daemon=True).start()
        for shown in node.follow():
            with turn:
                states[shown.object] = shown.state
                if client.is_connected():
                    publish(shown.object)


def main():
    words = sys.argv[1:]
    if words[:1] == ["devices"] and len(words) == 4:
        bridge_devices(*words[1:])
    elif words[:1] == ["states"] and len(words) in (3, 4):
        publish_states(words[1], words[2], words[3] if len(words) == 4 else "smi")
    else:
        sys.exit("\n\n".join(__doc__.split("\n\n")[1:2]))


if __name__ == "__main__":
    try:
        main()
    except KeyboardInterrupt:
        pass
    except (devices.Wrong, lunskaf.Full) as wrong:
        sys.exit(str(wrong))
