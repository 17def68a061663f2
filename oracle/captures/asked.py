"""What each capture's client is asked to do, and what it then sends to the broker: the one source of NAME.sent."""
import os
from typing import NamedTuple


class Action(NamedTuple):
    """What a client is to do: the line that a writer is told, words with tabs between them; and what it then sends."""
    told: str
    sent: list


def action(words, sent):
    return Action("\t".join(str(int(word) if isinstance(word, bool) else word) for word in words), sent)


def message(kind, topic="", qos=0, payload=b""):
    return f"{kind} qos={qos} size={len(payload)} payload={payload[:256].hex()} topic={topic}"


def other(*types):
    return [message(f"type-{number}") for number in types]


PUBACK, PUBREC, PUBREL, PUBCOMP, PINGREQ, DISCONNECT = 4, 5, 6, 7, 12, 14
# What answers a message that comes at this QoS, if one comes.
ANSWER = {"-": [], 0: [], 1: other(PUBACK), 2: other(PUBREC, PUBCOMP)}


def connect(name, clean=True, keepalive=60, user="-", password="-", will=("-", 0, False, b"")):
    topic, qos, retain, payload = will
    return action(["connect", name, clean, keepalive, user, password, topic, qos, retain, payload.hex()],
                  [message("connect", name)])


def publish(topic, payload=b"", qos=0, retain=False, back="-", verb="publish"):
    """`back`: the QoS at which the broker sends it back, where the client has subscribed to it."""
    return action([verb, topic, qos, retain, back, payload.hex()],
                  [message("publish", topic, qos, payload)] + other(*[PUBREL] * (qos == 2)) + ANSWER[back])


def again(name, *arguments):
    """A publish in a first connection that is lost; in the second one, which counts: CONNECT, and PUBLISH with DUP."""
    told, sent = publish(*arguments, verb="again")
    return Action(told, [message("connect", name)] + sent)


def subscribe(*filters):
    return action(["subscribe"] + [word for pair in filters for word in pair],
                  [message("subscribe", name, qos) for qos, name in filters])


def unsubscribe(*filters):
    return action(["unsubscribe", *filters], [message("unsubscribe", name) for name in filters])


def idle(seconds):
    """Longer than the client's keep alive and shorter than two of them: it pings once."""
    return action(["idle", seconds], other(PINGREQ))


def disconnect():
    return action(["disconnect"], other(DISCONNECT))


def stops(number, refused):
    """The reader refuses this one's packet with a number, and does not come to those behind it."""
    return Action(refused.told, [f"stops {number}"])


def sent(actions):
    """The lines of NAME.sent: the last is the first `stops`, if there is one."""
    lines = []
    for each in actions:
        lines += each.sent
        if lines[-1:] and lines[-1].startswith("stops "):
            break
    return lines


def payload(size):
    """Every byte there is, and not the same 256 again and again."""
    return bytes((7 * i + i // 256) % 256 for i in range(size))


class Capture(NamedTuple):
    writer: str  # who writes: a key of WRITERS in make
    what: str  # in words, for NAME.sent
    actions: list
    arguments: list = []  # of a mosquitto client, after the port
    before: list = []  # arguments of mosquitto_pub, for each message that the broker is to have before
    settings: str = ""  # of a bridge
    given: str = ""  # the input of a mosquitto client
    status: int = 0  # in which the client ends
    connections: int = 1  # the last one counts


LIMIT = 128  # bytes of a topic, a filter or a client id that the reader lets pass
LONG = "pier/" * 25 + "bin"
LONGER = LONG + "s"
ACCENTED = "télescope-" + "é" * 58 + "1"
assert len(LONG) == len(LONGER) - 1 == len(ACCENTED.encode()) == LIMIT

LATIN = os.fsdecode(b"\xe9toile")  # a password that is not UTF-8, as words of a command take such bytes

CAPTURES = {
    "mount": Capture("python", "a mount's client, as an example for installers", [
        connect("mount-7", user="mount-7", password="pier west", will=("mount/7/status", 1, True, b"offline")),
        subscribe((1, "mount/7/command/#"), (0, "guider/status"), (1, "dome/+/shutter")),
        publish("mount/7/status", b"online", 1, True),
        publish("mount/7/tracking", b"sidereal", 1),
        publish("mount/7/ra", b"05:34:31.94"),
        publish("mount/7/dec", b"+22:00:52.2"),
        publish("mount/7/pier-side", b"west", 1, True),
        disconnect(),
    ]),
    "python-payloads": Capture("python", "payloads around 256 bytes; a user name alone, a session that is kept", [
        connect("camera-2", clean=False, user="camera-2"),
        *[publish(f"camera/2/frame/{size}", payload(size), qos, qos == 1) for qos in (0, 1, 2)
          for size in (0, 1, 255, 256, 257)],
        publish(LONG, b"at the limit", 1),
        publish("caméra/2/cible/α-Lyræ", "Véga".encode(), 2, True),
        publish("カメラ/2/🔭", b"\xf0\x9f\x94", 0),  # half a character: payloads are bytes
        publish("camera/2/\ufeffname", b"U+FEFF is kept", 1),
        publish("/", b""), publish("//camera", b"empty levels", 1),
        disconnect(),
    ]),
    "python-echo": Capture("python", "messages that come back at each QoS, a ping, wildcards; a will of QoS 2", [
        connect("guider-3", keepalive=2, will=("guider/3/status", 2, False, b"lost")),
        subscribe((2, "guider/#")),
        publish("guider/status", b"guiding", 0, back=0),
        publish("guider/status", b"settling", 1, True, back=1),
        publish("guider/star", b"1024.5 768.25", 2, back=2),
        idle(3),
        subscribe((0, "$SYS/#"), (1, "mount/+/pier-side"), (2, "+/+/ra")),
        publish("mount/7/pier-side", b"east", 2, back=1),
        unsubscribe("guider/#"),
        publish("guider/status", b"nobody listens", 2),
        unsubscribe("$SYS/#", "mount/+/pier-side", "+/+/ra", "never/subscribed"),
        disconnect(),
    ]),
    "python-again": Capture("python", "the second connection of a session: a message sent again, with DUP", [
        Action(connect("focuser-1", clean=False).told, []),  # the first connection, which is not kept
        again("focuser-1", "focuser/1/position", b"23417", 1),
        publish("focuser/1/temperature", b"-4.5", 2),
        disconnect(),
    ], connections=2),
    "python-id-129": Capture("python", "a client id of 129 bytes", [
        stops(33, connect(LONGER)),
        publish("mount/7/pier-side", b"west"),
        disconnect(),
    ]),
    "c": Capture("c", "all that it can send, with a client id of 128 bytes; a will of QoS 0", [
        connect(ACCENTED, keepalive=2, will=("spectrograph/1/lamp", 0, True, b"")),
        subscribe((1, "spectrograph/1/lamp")),
        subscribe((0, "$SYS/broker/version"), (2, "spectrograph/#"), (1, LONG)),
        unsubscribe("$SYS/broker/version"),
        publish("spectrograph/1/slit", b"0.5", 2, True, back=2),
        publish("spectrograph/1/grating", b"1200", 1, back=1),
        publish("spectrograph/1/größe", b"\x00\xff", 0, back=0),
        idle(3),
        unsubscribe("spectrograph/1/lamp", "spectrograph/#", LONG),
        disconnect(),
    ]),
    "c-session": Capture("c", "payloads around 256 bytes; user name, password, a session that is kept", [
        connect("dome-1", clean=False, user="dôme", password="shut the slit",
                will=("dome/1/shutter", 2, True, payload(40))),
        *[publish("dome/1/azimuth", payload(size), qos, qos == 2) for qos, size in
          [(0, 257), (1, 256), (2, 255), (0, 1), (1, 0), (2, 0), (0, 0)]],
        disconnect(),
    ]),
    "c-large": Capture("c", "a payload over 65,535 bytes; an empty client id", [
        connect(""),
        publish("camera/1/preview", payload(100000), 1),
        publish("camera/1/state", b"idle", 1),
        disconnect(),
    ]),
    "node": Capture("node", "all that it can send; user name and password, a will of QoS 1", [
        connect("weather", keepalive=2, user="weather", password="☂",
                will=("weather/station", 1, False, "aus dem Takt ☁".encode())),
        subscribe((0, "weather/#")),
        subscribe((2, "observatory/+/close"), (1, "weather/rain/+"), (0, "$SYS/#")),
        publish("weather/wind", b"3.2", 0, back=0),
        publish("weather/rain/rate", b"0", 1, True, back=1),
        publish("observatory/1/close", payload(257), 2, back=2),
        publish("weather/rain/rate", b"", 1, True, back=1),
        publish("météo/nuages/北", payload(256), 2),
        publish("sky/quality", payload(255), 0, True),
        publish(LONG, payload(1), 1),
        idle(3),
        unsubscribe("weather/#"),
        unsubscribe("observatory/+/close", "weather/rain/+", "$SYS/#"),
        disconnect(),
    ]),
    "node-filter-129": Capture("node", "a filter of 129 bytes behind a good one; an empty client id", [
        connect(""),
        subscribe((1, LONG)),
        stops(33, subscribe((1, "guider/status"), (2, LONGER))),
        publish("guider/status", b"unheard"),
        disconnect(),
    ]),
    "mosquitto-pub": Capture("mosquitto_pub", "a message for each line; without -i it sends an empty client id", [
        connect(""),
        publish("mount/7/pier-side", b"west", 1), publish("mount/7/pier-side", b"", 1),
        publish("mount/7/pier-side", "östlich".encode(), 1),
        disconnect(),
    ], ["-V", "mqttv311", "-q", "1", "-t", "mount/7/pier-side", "-l"], given="west\n\nöstlich\n"),
    "mosquitto-pub-will": Capture("mosquitto_pub", "an empty message of QoS 2, retained; a will; a Latin-1 password", [
        connect("dome-2"),
        publish("dome/2/shutter", b"", 2, True),
        disconnect(),
    ], ["-V", "mqttv311", "-i", "dome-2", "-u", "dome-2", "-P", LATIN, "--will-topic", "dome/2/status",
        "--will-payload", "lost", "--will-qos", "2", "--will-retain", "-q", "2", "-r", "-t", "dome/2/shutter", "-n"]),
    "mosquitto-sub": Capture("mosquitto_sub", "three filters, messages of QoS 1 and 2 that came before, a ping", [
        connect("logger"),
        subscribe((2, "mount/7/status"), (2, "mount/7/pier-side"), (2, "télescope/+/nom")),
        unsubscribe("guider/#"), unsubscribe("$SYS/broker/load/#"),
        Action("", ANSWER[1] + ANSWER[2]),
        idle(8),
        disconnect(),
    ], ["-V", "mqttv311", "-i", "logger", "-c", "-k", "5", "-W", "8", "-q", "2", "-t", "mount/7/status",
        "-t", "mount/7/pier-side", "-t", "télescope/+/nom", "-U", "guider/#", "-U", "$SYS/broker/load/#"],
        before=[["-r", "-q", "1", "-t", "mount/7/status", "-m", "online"],
                ["-r", "-q", "2", "-t", "mount/7/pier-side", "-m", "west"]],
        status=27),  # its way to say that the time of -W is over
    "mosquitto-pub-31": Capture("mosquitto_pub", "MQTT 3.1: the protocol's name is MQIsdp, its level 3", [
        stops(32, connect("mount-7")),
    ], ["-V", "mqttv31", "-i", "mount-7", "-q", "1", "-t", "mount/7/pier-side", "-m", "west"]),
    "mosquitto-bridge": Capture("bridge", "a bridge with default settings: the protocol's level is 0x84", [
        stops(32, connect("site-1")),
    ], settings="remote_clientid site-1\ntopic mount/# out 1\ntopic guider/status in 1\n"),
    "mosquitto-bridge-311": Capture("bridge", "a bridge that is told to keep to 3.1.1 (try_private false)", [
        connect("site-1"),
        publish("$SYS/broker/connection/site-1/state", b"1", 1, True),
        unsubscribe("mount/#"),
        subscribe((1, "guider/status")),
        publish("mount/7/pier-side", b"west", 2),
    ], settings="remote_clientid site-1\ntry_private false\ntopic mount/# out 2\ntopic guider/status in 1\n"),
}
