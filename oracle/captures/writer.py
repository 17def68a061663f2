"""writer.py PORT: python3-paho-mqtt does what the lines of the input say (asked.py, `Action`), one after the other: the
next one only when the broker has acknowledged the last. No thread of the library runs, so nothing is sent between."""
import sys

import paho.mqtt.client as mqtt

PORT = int(sys.argv[1])
client = mqtt.Client(protocol=mqtt.MQTTv311)  # replaced in connect
seen = []  # what came since the last action began: what the broker answers, and the topics of messages


def until(*names):
    while not all(name in seen for name in names):
        if client.loop(0.1) != mqtt.MQTT_ERR_SUCCESS:
            sys.exit(f"writer.py: the connection ended, with {seen} in place of {names}")


def connect(name, clean, keepalive, user, password, topic, qos, retain, payload):
    global client
    client = mqtt.Client(name, clean_session=clean == "1", protocol=mqtt.MQTTv311)
    client.on_connect = lambda *_: seen.append("connect")
    client.on_publish = lambda *_: seen.append("publish")
    client.on_message = lambda _, __, message: seen.append(message.topic)
    client.on_subscribe = lambda *_: seen.append("subscribe")
    client.on_unsubscribe = lambda *_: seen.append("unsubscribe")
    if user != "-":
        client.username_pw_set(user, None if password == "-" else password)
    if topic != "-":
        client.will_set(topic, bytes.fromhex(payload), int(qos), retain == "1")
    client.connect("127.0.0.1", PORT, int(keepalive))
    until("connect")


def publish(topic, qos, retain, back, payload):
    client.publish(topic, bytes.fromhex(payload), int(qos), retain == "1")
    until("publish", *[topic] * (back != "-"))


def again(topic, qos, retain, _, payload):
    """The acknowledgement is not read, and the connection opened anew: Paho sends the message a second time."""
    client.publish(topic, bytes.fromhex(payload), int(qos), retain == "1")
    client.reconnect()
    until("connect", "publish")


def subscribe(*words):
    client.subscribe([(name, int(qos)) for qos, name in zip(words[::2], words[1::2])])
    until("subscribe")


def unsubscribe(*names):
    client.unsubscribe(list(names))
    until("unsubscribe")


def idle(seconds):
    for _ in range(10 * int(seconds)):
        client.loop(0.1)


def disconnect():
    client.disconnect()
    client.loop()


for line in sys.stdin:
    seen.clear()
    action, *words = line.rstrip("\n").split("\t")
    globals()[action](*words)
