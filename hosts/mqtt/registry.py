"""A service registry without a server of its own: each process holds a replica, and a broker carries what they send.

Messages may be lost, come twice and in any order, and processes and the broker may go and come back. What a process writes goes to
all as a delta. Each tells the others now and then which digest it holds; who holds another one asks for what it lacks.
"""

from __future__ import annotations

import os
import queue
import random
import sys
import time
from typing import Callable

import paho.mqtt.client as mqtt

sys.path.insert(0, os.path.join(os.path.dirname(os.path.abspath(__file__)), "..", "..", "python"))
from ginelm import Letter, LostMemory, Map, NotAMessage, Replica, SessionsFull  # noqa: E402

BEAT = 0.2  # the seconds between two tellings of the digest
PATIENCE = 0.4  # the seconds after which a synchronisation is asked for again; after forty times that it is given up


class Registry:
    """Which instances of a service there are: at the key of the service, a field for each with its address. A process has a name that
    no other has or ever had, and keeps its replica in a file, from which it comes back under that name."""

    def __init__(self, name: int, file: str, port: int, drop: float = 0.0) -> None:
        self.name, self.file, self.drop, self.beaten = name, file, drop, 0.0
        if os.path.exists(file):
            with open(file, "rb") as saved:
                self.replica = Replica.resume(saved.read())
        else:
            self.replica = Replica(name)
        self.came: queue.SimpleQueue[tuple[str, bytes]] = queue.SimpleQueue()
        self.watched: dict[str, tuple[set[bytes], Callable[[set[bytes]], None]]] = {}
        self.opened: dict[int, list[float]] = {}  # of each own synchronisation: when it began, and when it was last asked for
        self.client = mqtt.Client(client_id=f"ginelm-{name}")
        topics = [("ginelm/all", 0), ("ginelm/here/+", 0), (f"ginelm/to/{name}", 0)]
        self.client.on_connect = lambda client, *_: client.subscribe(topics)
        self.client.on_message = lambda _client, _data, message: self.came.put((message.topic, message.payload))
        self.client.reconnect_delay_set(min_delay=1, max_delay=1)
        self.client.connect_async("127.0.0.1", port, keepalive=2)
        self.client.loop_start()

    def register(self, service: str, address: str) -> None:
        """This process offers the service at this address."""
        Map(self.replica).fields(service)[str(self.name)] = address
        self.save()
        self.changed(self.replica.flush())

    def unregister(self, service: str) -> None:
        """This process offers the service no more."""
        self.replica.remove_field(service.encode(), str(self.name).encode())
        self.save()
        self.changed(self.replica.flush())

    def lookup(self, service: str) -> set[bytes]:
        """The addresses at which the service is offered."""
        return set(self.replica.values_of_key(service.encode()))

    def watch(self, service: str, told: Callable[[set[bytes]], None]) -> None:
        """Calls this with the addresses of the service each time that they change."""
        self.watched[service] = (self.lookup(service), told)

    def run(self, seconds: float) -> None:
        """Takes in what comes, for so many seconds."""
        end = time.monotonic() + seconds
        while (now := time.monotonic()) < end:
            if now - self.beaten > BEAT:
                self.beat(now)
            try:
                topic, payload = self.came.get(timeout=min(BEAT, end - now))
            except queue.Empty:
                continue
            if random.random() >= self.drop:
                self.take(topic, payload, now)

    def save(self) -> None:
        """Keeps the replica in its file, before anything is sent that it made or asked for."""
        with open(f"{self.file}.new", "wb") as saved:
            saved.write(self.replica.save())
            saved.flush()
            os.fsync(saved.fileno())
        os.replace(f"{self.file}.new", self.file)

    def changed(self, letters: list[Letter]) -> None:
        """Sends these letters, and tells who watches a service of which the addresses changed."""
        for letter in letters:
            self.client.publish("ginelm/all" if letter.to is None else f"ginelm/to/{letter.to}", letter.data)
        changed = {key.decode() for key in self.replica.changes()}
        for service in changed & self.watched.keys():
            before, told = self.watched[service]
            found = self.lookup(service)
            if found != before:
                self.watched[service] = (found, told)
                told(found)

    def beat(self, now: float) -> None:
        """Tells its digest, and goes on with what it waits for."""
        self.beaten = now
        self.client.publish(f"ginelm/here/{self.name}", self.replica.digest() or b"-")
        is_open = {session.number for session in self.replica.sessions()}
        self.opened = {number: when for number, when in self.opened.items() if number in is_open}
        for number, when in self.opened.items():
            if now - when[0] > 40 * PATIENCE:
                self.replica.abandon(number)
            elif now - when[1] > PATIENCE:
                self.changed(self.replica.retry(number))
                when[1] = now

    def take(self, topic: str, payload: bytes, now: float) -> None:
        """Takes in a message of another process, or the digest that it holds."""
        if topic.startswith("ginelm/here/"):
            if payload != (self.replica.digest() or b"-"):
                self.ask(int(topic.rpartition("/")[2]), now)
            return
        try:
            letters = self.replica.take(payload).letters
        except NotAMessage:
            return
        except LostMemory:
            raise SystemExit(f"the name {self.name} was used without its memory: start with the file of that time, or another name")
        if letters:
            self.save()
        self.changed(letters)

    def ask(self, peer: int, now: float) -> None:
        """Opens a synchronisation with the peer, if none is open with it."""
        if peer != self.name and all(session.answerer != peer for session in self.replica.sessions()):
            try:
                number, letter = self.replica.ask(peer)
            except SessionsFull:
                return
            self.opened[number] = [now, now]
            self.save()
            self.changed([letter])
