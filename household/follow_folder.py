#!/usr/bin/python3
"""Makes a share hold the songs and the playlists of a folder of music files, and nothing else.

    follow_folder.py FOLDER LISTEN EDIT                    once
    follow_folder.py FOLDER LISTEN EDIT --every SECONDS    again and again, until it is stopped

LISTEN and EDIT are the two addresses of the share, such as 127.0.0.1:3689 and 127.0.0.1:3690. The script keeps no file: it
reads at LISTEN what the share holds, and sends the difference to EDIT. So it needs to know nothing of what happened before.

It reads the folder as records.py does. The other scripts of its folder have to be in the same folder as this one. The row of
a file that can't be read stays as it is in the share. If more than a quarter of the share's songs, and more than five, would be
dropped, the script sends nothing, unless --drop-many is given. A song whose file was renamed does not count as dropped.

It writes `revision N: P put, D dropped`, which counts songs and playlists, or `unchanged`. Standard error gets the files
that are left out, and the reason if the share was left as it is. Status 0: the share holds what the folder has. Status 1:
it does not. Status 2: the arguments are wrong. With --every the script writes a failure once, tries again in the next
round, names a file that is left out once, and writes `unchanged` only in the first round and after a failure.
"""

import argparse
import contextlib
import math
import signal
import sys
import time

from catalogue import Library, Playlist, Refusal, batches, counts, differences, shown
from records import Folder
from share_client import Connection, Refused, address, members, number, tags, understood

PASSES = 4  # how often a round reads folder and share if somebody changes them in the meantime
TEXT = 9  # the kind of a text in /content-codes; everything else in an item is a number
UNCHANGED = "unchanged"


def item_of(row, codes):
    """The item of a row, by the names and kinds of the content codes."""
    named = ((*codes[code], payload) for code, payload in row.items())
    return {name: payload.decode() if kind == TEXT else str(number(payload)) for name, kind, payload in named}


# The share


class Share:
    """A share, and the library that it holds as far as this script knows."""

    def __init__(self, listen, edit):
        self.players = Connection(listen)
        self.edit = edit
        self.session = 0  # no session has this number
        self.session_over = 0  # the number of the connection over which the script logged in
        self.library = None  # None if it has to be read
        self.revision = 0  # the revision at which the share holds the library
        self.read_over = 0  # the number of the connection; over a later one the share may be a new process

    def ask(self, path, words=""):
        """Asks within the session, and returns the payloads of the reply by code. Logs in if there is no such session."""
        target = f"{path}?session-id={{}}{words}"
        try:
            return dict(self.plain(target.format(self.session)))
        except Refused as refused:
            if refused.status != 403:
                raise
        self.session = number(dict(self.plain("/login"))[b"mlid"])
        self.session_over = self.players.made
        return dict(self.plain(target.format(self.session)))

    def plain(self, target):
        """Asks, and returns the codes and payloads of the reply."""
        status, body = self.players.get(target)
        if status != 200:
            raise Refused(self.players.address, status, body)
        return members(body)

    def listing(self, path, words=""):
        """The revision of a listing, and its rows, each as payloads by code."""
        found = self.ask(path, words)
        return number(found[b"musr"]), [dict(tags(row)) for _, row in tags(found[b"mlcl"])]

    def codes(self):
        """The names and kinds of the content codes, by code."""
        rows = [dict(tags(row)) for code, row in self.plain("/content-codes") if code == b"mdcl"]
        return {row[b"mcnm"]: (row[b"mcna"].decode(), number(row[b"mcty"])) for row in rows}

    def know(self):
        """Makes `library` what the share holds now. Reads it only if it may have changed."""
        with understood(self.players.address):
            if self.library is None or not self.is_as_known():
                self.read()

    def is_as_known(self):
        """Whether the share is still the process that was read, and at the revision that is known."""
        revision = number(self.ask("/update", "&revision-number=0")[b"musr"])
        return (self.players.made, revision) == (self.read_over, self.revision)

    def read(self):
        """Reads the library, all of it at one revision and over one connection."""
        self.library = None
        for _ in range(PASSES):
            try:
                library, revisions, over = self.read_once()
            except Refused as refused:
                if refused.status != 404:  # somebody dropped a list
                    raise
                continue
            if len(revisions) == 1 and over == self.players.made:
                self.library, self.revision, self.read_over = library, revisions.pop(), over
                return
        raise Refusal(f"{self.players.address}: changes while it is read")

    def read_once(self):
        """The library, the revisions of its listings, and the number of the connection for the first request."""
        library, codes, over = Library(), self.codes(), self.players.made
        revision, rows = self.listing("/databases/1/items", "&meta=all")
        revisions = {revision}
        library.items = {number(row.pop(b"miid")): item_of(row, codes) for row in rows}
        revision, rows = self.listing("/databases/1/containers")
        revisions.add(revision)
        for row in rows:
            if not number(row.get(b"abpl", b"")):  # which marks the list of all items
                key = number(row[b"miid"])
                library.lists[key] = self.playlist(key, row, revisions)
        return library, revisions, over

    def playlist(self, key, row, revisions):
        """The list of a row of the containers. A share does not send the query of a rule list."""
        name = row[b"minm"].decode()
        if number(row.get(b"aeSP", b"")):
            return Playlist(name, {}, "")
        revision, rows = self.listing(f"/databases/1/containers/{key}/items", "&meta=dmap.itemid")
        revisions.add(revision)
        return Playlist(name, {number(row[b"mcti"]): number(row[b"miid"]) for row in rows})

    def send(self, records):
        """Sends records in batches. Returns the revision after them, and whether nobody else made one in between."""
        revision = self.revision
        with contextlib.closing(Connection(self.edit)) as connection:
            for count, batch in enumerate(batches(records), 1):
                revision = connection.edit(batch)
        return revision, revision == self.revision + count

    def bring(self, folder, drop_many, lines):
        """Makes the share hold what a folder has, and returns the line that says so. Sets `lines` to those of the reading."""
        sent = []
        for _ in range(PASSES):
            self.know()
            reading = folder.read(self.library)
            lines[:] = reading.lines
            reading.check(drop_many)
            records = list(differences(self.library, reading.library))
            if not records:
                put, dropped = counts(sent)
                return f"revision {self.revision}: {put} put, {dropped} dropped" if sent else UNCHANGED
            # A listing lacks members whose items are not there. A new item may show such members, so read again after it.
            sure = not (reading.library.lists and reading.library.items.keys() - self.library.items.keys())
            self.library = None
            revision, alone = self.send(records)
            sent += records
            if sure and alone:
                self.library, self.revision = reading.library, revision
        raise Refusal(f"{self.players.address}: differs from {shown(folder.path)} again after {PASSES} passes")

    def leave(self):
        """Logs out and closes the connection. Over a later connection the session may be somebody else's, and stays."""
        if self.session and self.players.sock and self.session_over == self.players.made:
            with contextlib.suppress(Refusal):
                self.players.ask("GET", f"/logout?session-id={self.session}")
        self.players.close()


# The command


class Said:
    """What the last rounds wrote, so that a round writes only what is new."""

    def __init__(self):
        self.lines = set()
        self.well = None
        self.line = None

    def say(self, lines, well, line):
        """Writes the outcome of a round. A round that failed before it read the folder has no lines."""
        for each in lines:
            if each not in self.lines:
                print(each, file=sys.stderr, flush=True)
        if lines or well:
            self.lines = set(lines)
        if not (well == self.well and line == (UNCHANGED if well else self.line)):
            print(line, file=sys.stdout if well else sys.stderr, flush=True)
        self.well, self.line = well, line


def bring_once(share, folder, drop_many, said):
    """Makes one round, and returns whether the share holds what the folder has."""
    lines = []
    try:
        line, well = share.bring(folder, drop_many, lines), True
    except Refusal as refusal:
        line, well = str(refusal), False
    said.say(lines, well, line)
    return well


def seconds(text):
    """An argument that has to be a number above 0."""
    if not 0 < float(text) < math.inf:
        raise argparse.ArgumentTypeError(f"{text}: not a number of seconds")
    return float(text)


def words():
    """Reads the arguments."""
    form = argparse.RawDescriptionHelpFormatter
    parser = argparse.ArgumentParser(description=__doc__, formatter_class=form)
    parser.add_argument("folder", metavar="FOLDER")
    parser.add_argument("listen", metavar="LISTEN", type=address)
    parser.add_argument("edit", metavar="EDIT", type=address)
    parser.add_argument("--every", metavar="SECONDS", type=seconds, help="go on, and wait this long after each round")
    parser.add_argument("--drop-many", action="store_true", help="even if that drops many of the songs")
    return parser.parse_args()


def main():
    asked = words()
    share, folder, said = Share(asked.listen, asked.edit), Folder(asked.folder), Said()
    if asked.every is not None:
        for one in (signal.SIGINT, signal.SIGTERM):
            signal.signal(one, lambda *_: sys.exit(0))
    try:
        while True:
            well = bring_once(share, folder, asked.drop_many, said)
            if asked.every is None:
                return 0 if well else 1
            time.sleep(asked.every)
    finally:
        share.leave()


if __name__ == "__main__":
    sys.exit(main())
