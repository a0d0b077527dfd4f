"""A catalogue and its records, for the other scripts of this folder: what records do to a catalogue, which records lead from
one to another, and the batches that they make. It needs nothing but Python."""

import contextlib
import csv
import io
import os
import sys
from collections import Counter, namedtuple

MOST_BYTES = 4_194_304  # of a batch
MOST_RECORDS = 65_536  # of a batch

PROPERTIES = [
    "dmap.itemname",
    "daap.songartist",
    "daap.songalbum",
    "daap.songalbumartist",
    "daap.songgenre",
    "daap.songcomposer",
    "daap.songyear",
    "daap.songtracknumber",
    "daap.songdiscnumber",
    "daap.songcompilation",
    "dmap.itemkind",
    "daap.songformat",
    "daap.songtime",
    "com.apple.itunes.mediakind",
]  # those that records.py writes; a record may have others too
HEADER = ["op", "kind", "id"] + PROPERTIES + ["list", "item"]


class Refusal(Exception):
    """The line that says why nothing is written or sent."""


class Library:
    """Items and playlists by id. An item is the texts of its properties by their DAAP names."""

    def __init__(self):
        self.items = {}
        self.lists = {}


# `members` has the ids of items by their position, counted from 1. Only a rule list has a `query`, and it has no members.
Playlist = namedtuple("Playlist", "name members query", defaults=[None])


# Texts


def shown(path):
    """A path as one line of text, whatever its bytes are."""
    text = os.fsencode(path).decode("utf-8", "backslashreplace")
    return "".join(c if c.isprintable() else c.encode("unicode_escape").decode() for c in text)


def why(error):
    """The text of an error, on one line."""
    return getattr(error, "strerror", None) or " ".join(str(error).split()) or type(error).__name__


# Records


def differences(old, new):
    """The records that turn one library into another, each as cells by column. Drops come first."""
    for key in sorted(old.items.keys() - new.items.keys()):
        yield {"op": "drop", "kind": "item", "id": key}
    for key in sorted(old.lists.keys() - new.lists.keys()):
        yield {"op": "drop", "kind": "list", "id": key}
    for key in sorted(new.items):
        if old.items.get(key) != new.items[key]:
            yield {"op": "put", "kind": "item", "id": key, **new.items[key]}
    for key in sorted(new.lists):
        yield from list_differences(key, old.lists.get(key), new.lists[key])


def lost_count(old, new):
    """How many items of a library another lacks. An item that is the same under another id is not lost."""
    gone = Counter(contents(old.items[key]) for key in old.items.keys() - new.items.keys())
    come = Counter(contents(new.items[key]) for key in new.items.keys() - old.items.keys())
    return sum((gone - come).values())


def contents(item):
    """The cells of an item, whatever their order is."""
    return frozenset(item.items())


def list_differences(key, old, new):
    """The records that turn a list into another with the same id. Putting a list removes its members."""
    members = old.members if old else {}
    if old is None or (old.name, old.query) != (new.name, new.query):
        rule = {} if new.query is None else {"query": new.query}
        yield {"op": "put", "kind": "rule" if rule else "list", "id": key, "dmap.itemname": new.name, **rule}
        members = {}
    for place in sorted(members.keys() - new.members.keys()):
        yield {"op": "drop", "kind": "member", "id": place, "list": key}
    for place, item in sorted(new.members.items()):
        if members.get(place) != item:
            yield {"op": "put", "kind": "member", "id": place, "list": key, "item": item}


def counts(records):
    """How many songs and lists the records put, and how many they drop. A list counts as put if its members change."""
    things = {"put": set(), "drop": set()}
    for record in records:
        if record["kind"] == "member":
            things["put"].add(("list", record["list"]))
        else:
            things[record["op"]].add(("item" if record["kind"] == "item" else "list", record["id"]))
    return len(things["put"]), len(things["drop"])


def line_of(cells):
    """A line of comma separated text, in bytes. A cell with either of the two bytes of a line end is quoted."""
    text = io.StringIO()
    csv.writer(text, lineterminator="\r\n").writerow(cells)
    return text.getvalue()[:-2].encode("utf-8") + b"\n"


def lines_of(records):
    """The header line, and the lines of the records."""
    others = {name for record in records for name in record} - set(HEADER)
    header = HEADER + sorted(others)
    return line_of(header), [line_of(record.get(name, "") for name in header) for record in records]


def batches(records):
    """Yields the records in batches, each with a header and within the limits of a batch."""
    head, lines = lines_of(records)
    batch, size = [], len(head)
    for line in lines:
        if batch and (size + len(line) > MOST_BYTES or len(batch) == MOST_RECORDS):
            yield head + b"".join(batch)
            batch, size = [], len(head)
        batch.append(line)
        size += len(line)
    if batch:
        yield head + b"".join(batch)


def text_of(library):
    """The records of a library as one text, in bytes."""
    head, lines = lines_of(list(differences(Library(), library)))
    return head + b"".join(lines)


def apply(library, row):
    """Applies a record to a library."""
    key = int(row["id"])
    what = row["op"], row["kind"]
    if what == ("put", "item"):
        cells = {name: cell for name, cell in row.items() if cell and name not in ("op", "kind", "id", "query", "list", "item")}
        library.items[key] = cells
    elif what == ("drop", "item"):
        library.items.pop(key, None)
    elif what in (("put", "list"), ("put", "rule")):
        library.lists[key] = Playlist(row.get("dmap.itemname", ""), {}, row["query"] if what[1] == "rule" else None)
    elif what == ("drop", "list"):
        library.lists.pop(key, None)
    elif what[1] == "member":
        apply_member(library.lists.get(int(row["list"])), key, row)
    else:
        raise ValueError(what)


def apply_member(playlist, place, row):
    """Applies a member's record to a list. Only a plain list has members."""
    if playlist is None or playlist.query is not None:
        return
    if row["op"] == "put":
        playlist.members[place] = int(row["item"])
    else:
        playlist.members.pop(place, None)


def apply_text(library, lines):
    """Applies records to a library, given as lines of text. Raises what a line that is not a record makes Python raise."""
    rows = csv.DictReader(lines)
    if rows.fieldnames and rows.fieldnames[:3] != HEADER[:3]:
        raise ValueError(rows.fieldnames)
    for row in rows:
        if None in row or None in row.values():
            raise ValueError(row)
        apply(library, row)


def apply_batch(library, batch):
    """Applies a batch to a library, given in bytes as `batches` yields it."""
    apply_text(library, io.StringIO(batch.decode("utf-8"), newline=""))


def read_records(path):
    """The library after the records of a file."""
    library = Library()
    try:
        with open(path, newline="", encoding="utf-8-sig") as file:
            apply_text(library, file)
    except OSError as error:
        raise Refusal(f"{shown(path)}: cannot be read: {why(error)}") from None
    except (ValueError, KeyError, csv.Error):
        raise Refusal(f"{shown(path)}: not records") from None
    return library


# Files


def is_replaced(path):
    """Whether --output replaces a file. A pipe or a device is written to."""
    return path is not None and os.path.isfile(path)


def write(data, path):
    """Writes bytes to standard output, or to a file, which then has all of them or stays as it was."""
    if path is None or (os.path.exists(path) and not is_replaced(path)):
        with open(sys.stdout.fileno() if path is None else path, "wb", closefd=path is not None) as file:
            file.write(data)
        return
    with replaced(path, data):
        pass


@contextlib.contextmanager
def replaced(path, data):
    """Writes bytes beside a file, and moves them into its place when the block ends. A block that fails leaves the file."""
    path = os.path.realpath(path)
    beside = f"{path}.{os.getpid()}.new"
    try:
        with open(beside, "xb") as file:
            file.write(data)
            file.flush()
            os.fsync(file.fileno())
        yield
        os.replace(beside, path)
    except BaseException:
        if os.path.exists(beside):
            os.remove(beside)
        raise
    sync_folder(os.path.dirname(path))


def sync_folder(path):
    """Has the disk keep the names in a folder."""
    folder = os.open(path, os.O_RDONLY | os.O_DIRECTORY)
    try:
        os.fsync(folder)
    finally:
        os.close(folder)
