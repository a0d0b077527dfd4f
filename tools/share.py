"""Runs a share or a relay over loopback, and makes requests of it. Scripts of trials/ and bench/ use it."""

import atexit
import os
import pathlib
import random
import socket
import subprocess

TOP = pathlib.Path(__file__).resolve().parent.parent
PROGRAM = os.environ.get("DAAPSHARE", str(TOP / "crates/daapshare/out/daapshare"))
PORTS = 10_000, 32_768  # below the ports that Linux gives to clients


def free_ports(count):
    """Returns different ports of this machine at which nothing listens. The system gives none of them to clients."""
    ports = set()
    while len(ports) < count:
        port = random.randrange(*PORTS)
        try:
            socket.create_server(("127.0.0.1", port)).close()
            ports.add(port)
        except OSError:
            pass
    return list(ports)


class Link:
    """A connection on which one request is made after another."""

    def __init__(self, port, room=1 << 16, host="127.0.0.1"):
        self.socket = socket.create_connection((host, port), timeout=120)
        self.socket.setsockopt(socket.IPPROTO_TCP, socket.TCP_NODELAY, 1)
        self.room = bytearray(room)

    def ask(self, target, body=None):
        """Makes a request. Returns the status of the reply, and its body, which is valid until the next request."""
        self.send(target, body)
        return self.reply()

    def send(self, target, body=None):
        """Sends a request, and does not wait for the reply."""
        head = f"GET {target} HTTP/1.1\r\n" if body is None else f"POST {target} HTTP/1.1\r\nContent-Length: {len(body)}\r\n"
        self.socket.sendall(head.encode() + b"Host: loopback\r\n\r\n" + (body or b""))

    def reply(self):
        """Returns the next reply, as `ask` does."""
        got, end = 0, -1
        while end < 0:
            got += self.receive(got)
            end = self.room.find(b"\r\n\r\n", 0, got)
        head = bytes(self.room[:end]).decode().split("\r\n")
        fields = dict(line.lower().split(": ", 1) for line in head[1:])
        start, whole = end + 4, end + 4 + int(fields.get("content-length", 0))
        if whole > len(self.room):
            self.room = self.room[:got] + bytearray(whole - got)
        while got < whole:
            got += self.receive(got)
        return int(head[0].split()[1]), memoryview(self.room)[start:whole]

    def receive(self, at):
        """Receives bytes into the room from offset `at` on. Returns how many came."""
        with memoryview(self.room) as room:
            count = self.socket.recv_into(room[at:])
        if count == 0:
            raise EOFError("the connection ended within a reply")
        return count

    def close(self):
        self.socket.close()


class Running:
    """A program that runs in a process of its own, under the tool whose words are `before` it, if there are any."""

    def __init__(self, words, records=os.devnull, program=PROGRAM, before=(), **how):
        with open(records, "rb") as source:
            self.process = subprocess.Popen([*before, program, *words], stdin=source, stdout=subprocess.PIPE, **how)
        atexit.register(self.process.kill)
        self.first = self.process.stdout.readline().decode()

    def memory(self, what):
        """Returns the bytes that the process has (`VmRSS`), or the most that it had (`VmHWM`)."""
        with open(f"/proc/{self.process.pid}/status") as lines:
            return next(int(line.split()[1]) * 1024 for line in lines if line.startswith(what + ":"))

    def ended(self, seconds=120):
        """Waits until it has ended. Returns its last lines and its status."""
        lines = self.process.communicate(timeout=seconds)[0].decode()
        return lines, self.process.returncode

    def kill(self):
        self.process.kill()
        self.process.communicate()


class Share(Running):
    """A share of records. Once this is made it listens at two ports, at those that are given if there are any."""

    def __init__(self, records, *words, ports=None, program=PROGRAM, before=(), **how):
        self.listen, self.edit = ports or free_ports(2)
        places = [f"127.0.0.1:{port}" for port in (self.listen, self.edit)]
        super().__init__(["serve", *places, *words], records, program, before, **how)

    def stop(self):
        """Stops the share. Returns its last lines and its status."""
        link = Link(self.edit)
        link.ask("/stop", b"")
        link.close()
        return self.ended()


class Relay(Running):
    """A relay of the share or relay that listens at a port. Once this is made it listens at a port of its own."""

    def __init__(self, upstream, *words, rounds=16_384, program=PROGRAM, before=(), **how):
        [self.listen] = free_ports(1)
        places = [f"127.0.0.1:{port}" for port in (upstream, self.listen)]
        super().__init__(["relay", *places, str(rounds), *words], os.devnull, program, before, **how)


def tags(payload):
    """Yields the code and the payload of each tag, in order."""
    at = 0
    while at < len(payload):
        size = int.from_bytes(payload[at + 4 : at + 8], "big")
        yield bytes(payload[at : at + 4]), payload[at + 8 : at + 8 + size]
        at += 8 + size


def number(payload):
    """Returns the number that a payload encodes."""
    return int.from_bytes(payload, "big")


def only(body):
    """Returns the members of a body that is one list, by their codes."""
    [(_, payload)] = tags(body)
    return dict(tags(payload))


def rows(members):
    """Returns the rows of a listing, by their ids."""
    return {number(next(tags(row))[1]): bytes(row) for _, row in tags(members[b"mlcl"])}


def names(members):
    """Returns the names of the rows of a listing, by their ids."""
    return {key: dict(tags(row)).get(b"minm", b"").decode() for key, row in rows(members).items()}


def dropped(members):
    """Returns the ids of the rows that a delta drops."""
    return [number(key) for _, key in tags(members.get(b"mudl", b""))]


def login(link):
    """Logs in. Returns the number of the session."""
    return number(only(link.ask("/login")[1])[b"mlid"])


def listing(port, words="meta=dmap.itemname"):
    """Returns the members of the items listing of what listens at a port, over a new connection and session."""
    link = Link(port)
    status, body = link.ask(f"/databases/1/items?session-id={login(link)}&{words}")
    link.close()
    assert status == 200, status
    return only(bytes(body))
