"""Players in one process, which compare each listing that they read with what the share had. bench/thousand and trials/balanced
use them.

Edit K gives song K the title `Edit K` (`Edits`), so each listing shows how many edits it has. It has to have the rows that the
share had after so many. In a session a listing with fewer edits must not follow one with more.
"""

import collections
import functools
import re
import selectors
import socket
import sys
import time

from balanced import title
from share import number, only, tags

A_SECOND = 100  # how many players log in in a second


def fail(line):
    sys.exit(f"FAILED: {line}")


@functools.cache
def edited_row(key):
    return row(key, f"Edit {key}")


def row(key, text):
    """The row of a song in a listing with `meta=dmap.itemname`."""
    name = b"minm" + len(text).to_bytes(4, "big") + text.encode()
    payload = b"miid\0\0\0\x04" + key.to_bytes(4, "big") + name
    return b"mlit" + len(payload).to_bytes(4, "big") + payload


class Expected:
    """The rows of the share after each number of edits."""

    def __init__(self, songs):
        self.rows = [row(key, title(key)) for key in range(1, songs + 1)]
        self.listings = {b"".join(self.rows): 0}  # how many edits a listing has
        self.edits = 0

    def edits_of(self, listing, sent):
        """How many edits a whole listing has, or None if the share never had its rows."""
        while listing not in self.listings and self.edits < sent:
            self.edits += 1
            self.rows[self.edits - 1] = edited_row(self.edits)
            self.listings[b"".join(self.rows)] = self.edits
        return self.listings.get(listing)

    def edits_after(self, delta, before, sent):
        """How many edits a player has after a delta, or None if its rows are not those of the edits that follow `before`."""
        rows = {number(next(tags(payload))[1]): payload for _, payload in tags(delta)}
        after = before + len(rows)
        expected = {key: edited_row(key)[8:] for key in range(before + 1, after + 1)}
        return after if after <= sent and rows == expected else None


class Player:
    """A player with an address of its own. It logs in, lists all songs, and waits for changes with an update. After each it asks
    for the delta. When its connection ends, or it is refused, it logs in anew.

    `edits` is how many edits its rows have, None before the first listing of a session. `holds` is whether an update is
    pending."""

    def __init__(self, crowd, count):
        self.crowd = crowd
        self.address = f"127.2.{count // 250}.{count % 250 + 1}"
        self.socket, self.holds, self.edits = None, False, None
        self.latest = 0  # the most edits that it had in any session

    def begin(self):
        """Connects, and logs in then."""
        self.socket = socket.socket()
        self.socket.setblocking(False)
        self.socket.setsockopt(socket.IPPROTO_TCP, socket.TCP_NODELAY, 1)
        self.socket.bind((self.address, 0))
        self.socket.connect_ex(("127.0.0.1", self.crowd.port))
        self.buffer, self.whole = bytearray(), None
        self.crowd.selector.register(self.socket, selectors.EVENT_WRITE, self)

    def end(self, why):
        """Closes the connection, to begin anew later."""
        self.crowd.selector.unregister(self.socket)
        self.socket.close()
        self.socket, self.holds, self.edits = None, False, None
        self.crowd.ended[why] += 1
        self.crowd.waiting.append(self)

    def ask(self, target, take):
        self.take = take
        try:
            self.socket.send(f"GET {target} HTTP/1.1\r\nHost: loopback\r\n\r\n".encode())
        except OSError:
            self.end("connection lost")

    def on_event(self, mask):
        if mask & selectors.EVENT_WRITE:
            self.crowd.selector.modify(self.socket, selectors.EVENT_READ, self)
            self.ask("/login", self.take_login)
            return
        try:
            data = self.socket.recv(1 << 20)
        except OSError:
            data = b""
        if not data:
            self.end("connection lost")
            return
        self.buffer += data
        self.take_reply()

    def take_reply(self):
        """Takes a reply, once all of it is there."""
        if self.whole is None:
            end = self.buffer.find(b"\r\n\r\n")
            if end < 0:
                return
            length = re.search(rb"(?i)content-length: (\d+)", self.buffer[:end])
            self.body_at, self.whole = end + 4, end + 4 + (int(length[1]) if length else 0)
        if len(self.buffer) < self.whole:
            return
        status, body = int(self.buffer[9:12]), bytes(self.buffer[self.body_at : self.whole])
        del self.buffer[: self.whole]
        self.whole, self.holds = None, False
        if status == 200:
            self.take(body)
        else:
            self.end(f"status {status}")

    def take_login(self, body):
        self.session = number(only(body)[b"mlid"])
        self.ask(f"/databases/1/items?session-id={self.session}&meta=dmap.itemname", self.take_listing)

    def take_listing(self, body):
        """Takes the first listing of a session."""
        members = only(body)
        edits = self.crowd.edits_of(members)
        if edits is None:
            fail(f"{self.address}: a listing that the share never had, {describe(members)}")
        self.crowd.earlier += edits < self.latest
        self.learn(edits, members)

    def take_delta(self, body):
        members = only(body)
        edits = self.crowd.edits_of(members, self.edits)
        if edits is None or edits < self.edits:
            fail(f"{self.address}: after edit {self.edits} a listing of none or fewer edits, {describe(members)}")
        self.learn(edits, members)

    def learn(self, edits, members):
        """Notes what a listing brought, and waits for the next change."""
        now = time.monotonic()
        for key in range(self.latest + 1, edits + 1):
            self.crowd.arrived[key].append(now)
        self.edits, self.latest = edits, max(self.latest, edits)
        self.crowd.listings += 1
        self.revision = number(members[b"musr"])
        self.holds = True
        self.ask(f"/update?session-id={self.session}&revision-number={self.revision}", self.take_update)

    def take_update(self, _):
        target = f"/databases/1/items?session-id={self.session}&meta=dmap.itemname&delta={self.revision}"
        self.ask(target, self.take_delta)


def describe(members):
    """What a wrong listing has."""
    rows = [payload for _, payload in tags(members[b"mlcl"])]
    return f"{'a delta' if number(members[b'muty']) else 'whole'}, of {len(rows)} rows, the first {rows[:1]}"


class Crowd:
    """All players, in one loop. `arrived` has for each edit the times at which players had it, and `ended` how many connections
    ended, by the reason."""

    def __init__(self, system, edits, songs, players):
        self.system, self.edits, self.port = system, edits, system.port
        self.selector = selectors.DefaultSelector()
        self.expected = Expected(songs)
        self.arrived = collections.defaultdict(list)
        self.ended = collections.Counter()
        self.listings = 0
        self.earlier = 0  # listings that began a session with fewer edits than the player had in one before
        self.players = [Player(self, count) for count in range(players)]
        self.waiting = collections.deque(self.players)

    def run(self, held, seconds):
        """Runs the players until something holds. Returns how long that took, or None if it did not come in time."""
        begin, begun, look_at = time.monotonic(), 0, 0
        while True:
            now = time.monotonic()
            if now > look_at:
                if held():
                    return now - begin
                if now > begin + seconds:
                    return None
                self.system.supervise()
                look_at = now + 0.05
            while self.waiting and begun < (now - begin) * A_SECOND:
                self.waiting.popleft().begin()
                begun += 1
            for key, mask in self.selector.select(0.02):
                if key.data.socket is key.fileobj:
                    key.data.on_event(mask)

    def all_hold(self):
        return all(player.holds for player in self.players)

    def all_have(self, edit):
        return all(player.edits is not None and player.edits >= edit for player in self.players)

    def all_have_all(self):
        return self.edits.all_acknowledged() and self.all_have(self.edits.sent()) and self.all_hold()

    def edits_of(self, members, before=None):
        """How many edits a listing leads to, or None if it is wrong. `before` is how many the player had."""
        sent, rows = self.edits.sent(), members[b"mlcl"]
        if number(members[b"muty"]) == 0:
            return self.expected.edits_of(rows, sent)
        if before is None or members.get(b"mudl"):
            return None
        return self.expected.edits_after(rows, before, sent)
