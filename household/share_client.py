"""Requests to a share and its replies, for the other scripts of this folder. It needs nothing but Python."""

import argparse
import contextlib
import http.client

from catalogue import Refusal, why

SECONDS = 60  # the time in which a share has to reply
NO_EDITS = "takes no edits: is it the address for players, and not the one for edits?"


class Refused(Refusal):
    """A reply with a status that the request does not expect."""

    def __init__(self, address, status, body=b""):
        text = " ".join(body.decode("utf-8", "replace").split())
        super().__init__(f"{address}: refused {status}" + (f": {text}" if status == 400 and text else ""))
        self.status = status


class Connection(http.client.HTTPConnection):
    """A connection to one address of a share. It connects for its first request, and again after the share closed it."""

    def __init__(self, address):
        host, _, port = address.rpartition(":")
        super().__init__(host.strip("[]"), int(port), timeout=SECONDS)
        self.address = address
        self.made = 0  # how many connections there were

    def connect(self):
        super().connect()
        self.made += 1

    def ask(self, method, target, body=None):
        """Sends a request, and returns the status and the body of the reply."""
        try:
            self.request(method, target, body)
            reply = self.getresponse()
            return reply.status, reply.read()
        except (OSError, http.client.HTTPException, UnicodeError) as error:  # the last for a host that is no name
            self.close()
            raise Refusal(f"{self.address}: cannot be reached: {why(error)}") from None

    def get(self, target):
        """Asks by GET. The share may have closed an open connection in the meantime, so that failing, asks over a new one."""
        kept = self.sock is not None
        try:
            return self.ask("GET", target)
        except Refusal:
            if not kept:
                raise
        return self.ask("GET", target)

    def edit(self, batch):
        """Sends a batch to the edit address, and returns the revision that it made."""
        status, body = self.ask("POST", "/edit", batch)
        if status == 404:
            raise Refusal(f"{self.address}: {NO_EDITS}")
        if status != 200:
            raise Refused(self.address, status, body)
        with understood(self.address):
            return number(dict(members(body))[b"musr"])


# Replies


def tags(payload):
    """Yields the codes and payloads of the DMAP tags in a payload."""
    at = 0
    while at < len(payload):
        end = at + 8 + number(payload[at + 4 : at + 8])
        if end > len(payload):
            raise ValueError("a tag passes the end of what holds it")
        yield payload[at : at + 4], payload[at + 8 : end]
        at = end


def number(payload):
    """The value of a payload that is a number."""
    return int.from_bytes(payload, "big")


def members(body):
    """The codes and payloads of the tags in a reply, which is one list."""
    [(_, payload)] = tags(body)
    return tags(payload)


@contextlib.contextmanager
def understood(address):
    """Refuses replies that a share of this project does not send."""
    try:
        yield
    except (KeyError, ValueError):
        raise Refusal(f"{address}: not a share of daapshare") from None


# Arguments


def address(text):
    """An argument that has to be a host and a port."""
    host, _, port = text.rpartition(":")
    plain = host and all("!" <= c <= "~" for c in text)
    if not plain or not port.isdecimal() or not 0 < int(port) < 65_536:
        raise argparse.ArgumentTypeError(f"{text}: not a host and a port, such as 127.0.0.1:3689")
    return text
