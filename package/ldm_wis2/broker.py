"""A connection to a broker of MQTT 3.1.1, by paho."""

import ssl
import time

import paho.mqtt.client as mqtt

from .common import FAULTY, Failed

# How long the broker may take to answer, in seconds.
PATIENCE = 20

# How many notifications may be under way that the broker has not acknowledged.
WINDOW = 100

GREATEST_PAUSE = 30


class Unreachable(Exception):
    """Why there is no connection, or none any more."""


def has_failed(reason):
    """Whether an answer of the broker is a refusal: a number up to version 1 of paho, a code that knows it from version 2 on."""
    return reason.is_failure if hasattr(reason, "is_failure") else int(reason) >= 128


def make_client(settings, is_clean):
    words = {"client_id": settings.id, "clean_session": is_clean, "protocol": mqtt.MQTTv311}
    if hasattr(mqtt, "CallbackAPIVersion"):
        return mqtt.Client(mqtt.CallbackAPIVersion.VERSION2, **words)
    return mqtt.Client(**words)


def tls_context(settings):
    """How the broker is known, by the words that the tools of mosquitto have for it; None for a connection in the clear."""
    if not (settings.cafile or settings.capath or settings.tls_use_os_certs):
        return None
    context = ssl.SSLContext(ssl.PROTOCOL_TLS_CLIENT)
    if settings.tls_use_os_certs:
        context.load_default_certs()
    if settings.cafile or settings.capath:
        context.load_verify_locations(settings.cafile or None, settings.capath or None)
    if settings.cert:
        context.load_cert_chain(settings.cert, settings.key or None)
    if settings.tls_version:
        context.minimum_version = context.maximum_version = ssl.TLSVersion[settings.tls_version.replace("tlsv", "TLSv").replace(".", "_")]
    context.check_hostname = not settings.insecure
    return context


class Broker:
    """At most one connection at a time. Each has a client of its own: paho would send again what an earlier one had under way, beside
    this program, which does that itself."""

    def __init__(self, settings, is_clean, filters=(), on_message=None, on_published=None):
        self.settings = settings
        self.is_clean = is_clean
        self.filters = list(filters)
        self.on_message = on_message
        self.on_published = on_published
        self.client = None
        self.pause = 0
        self.next_try = 0
        try:
            tls_context(settings)
        except (OSError, ValueError) as why:
            raise Failed(f"[broker]: its certificates: {getattr(why, 'strerror', None) or why}", FAULTY) from None

    def __str__(self):
        return f"{self.settings.host}:{self.settings.port}"

    def is_due(self):
        """Whether it is time to try to connect: each failure doubles the pause before the next try."""
        return time.monotonic() >= self.next_try

    def connect(self):
        """Connects and subscribes; raises Unreachable. What the broker kept for this client begins to come before it returns."""
        self.pause = min(2 * self.pause or 1, GREATEST_PAUSE)
        self.next_try = time.monotonic() + self.pause
        self.answer = self.granted = None
        try:
            self.client = self.new_client()
            self.client.connect(self.settings.host, self.settings.port, self.settings.keepalive)
        # a certificate that cannot be read, one that is not trusted, a host that is not there
        except (OSError, ValueError) as why:
            self.client = None
            raise Unreachable(getattr(why, "strerror", None) or str(why)) from None
        self.until("answer")
        if self.answer != "accepted":
            self.drop()
            raise Unreachable(self.answer)
        if self.filters:
            self.subscribe()
        self.pause = 0

    def subscribe(self):
        self.client.subscribe([(topic, 1) for topic in self.filters])
        self.until("granted")
        for topic, reason in zip(self.filters, self.granted):
            if has_failed(reason):
                self.drop()
                raise Unreachable(f"it refuses the subscription to {topic}")

    def new_client(self):
        client = make_client(self.settings, self.is_clean)
        if self.settings.username:
            client.username_pw_set(self.settings.username, self.settings.password())
        context = tls_context(self.settings)
        if context:
            client.tls_set_context(context)
        client.max_inflight_messages_set(WINDOW)
        client.on_connect = self.hear_answer
        client.on_subscribe = self.hear_granted
        client.on_publish = lambda _client, _data, number, *_: self.on_published(number)
        client.on_message = lambda _client, _data, message: self.on_message(message.topic, message.payload)
        return client

    def hear_answer(self, _client, _data, _flags, reason, *_):
        if isinstance(reason, int):
            self.answer = "accepted" if reason == 0 else mqtt.connack_string(reason)
        else:
            self.answer = str(reason) if reason.is_failure else "accepted"

    def hear_granted(self, _client, _data, _number, reasons, *_):
        self.granted = reasons

    def until(self, name):
        """Waits for an answer of the broker."""
        last = time.monotonic() + PATIENCE
        while getattr(self, name) is None:
            if time.monotonic() > last:
                self.drop()
                raise Unreachable(f"no answer within {PATIENCE} seconds")
            try:
                self.turn(0.1)
            except Unreachable:
                # the connection ends behind a refusal, which says more
                if self.answer in (None, "accepted"):
                    raise

    def turn(self, seconds):
        """Hears and sends what there is, within so many seconds; raises Unreachable where the connection broke."""
        code = self.client.loop(seconds)
        if code != mqtt.MQTT_ERR_SUCCESS:
            self.drop()
            raise Unreachable(mqtt.error_string(code))

    def publish(self, topic, payload):
        """The number of a message under way, which `on_published` is told once the broker has acknowledged it."""
        return self.client.publish(topic, payload, qos=1).mid

    def drop(self):
        """Ends the connection; what was not acknowledged is as it was."""
        client, self.client = self.client, None
        if client:
            client.disconnect()
            # what is left of it is shut without a word
            client.on_message = client.on_publish = None
