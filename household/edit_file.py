#!/usr/bin/python3
"""Shows what the edit file of `daapshare serve --file` holds, and writes one that begins anew with it.

    edit_file.py FILE                          a line for each batch, and how much the file holds
    edit_file.py FILE --batch N                the records of batch N, counted from 1
    edit_file.py FILE --records library.csv    records that begin a share with what the file holds
    edit_file.py FILE --renew NEW              an edit file that begins with what FILE holds
    edit_file.py FILE --before-start           renews FILE itself if it has more than 200,000 edits, and keeps it as FILE.old

A share takes 262,144 edits in all, and every batch of its file counts again when it starts. A renewed file has one edit for
each item, list and member that is left, so the share can go on. With 80 % of the edits used the script warns.

Without --before-start the script writes nothing to FILE. --renew and --before-start need FILE for themselves: a share that runs
holds a lock on its file, and the script then writes nothing. So it does if a file that it would replace is in use. The others
read FILE at any time, and show what was complete when they read.

What follows the last complete batch does not count, and a share that starts with FILE removes it. An interrupted change leaves
one batch there at most. If there are more, a byte of FILE was changed: the script says so, and --before-start copies FILE to
FILE.damaged.

Status 0: done. Status 1: FILE is not an edit file, is in use, or a file can't be read or written, and the last line says why.
Status 2: the arguments are wrong.
"""

import argparse
import contextlib
import csv
import fcntl
import io
import os
import sys
from collections import namedtuple

from catalogue import HEADER, Library, Refusal, apply, batches, differences, line_of, replaced, shown, sync_folder, why, write

OPEN, CLOSED = b"\x01", b"\x00"
SIGNATURE = b"DAAPEDIT"
BEGIN = len(OPEN + SIGNATURE)  # the offset of the first batch
FRAME = 5  # bytes before the records of a batch: an open byte, and their number in four bytes
MOST_EDITS = 262_144  # of a share
MANY_EDITS = 200_000  # past which --before-start renews a file
WARNED_PART = 0.8  # of the edits

# `at` is the offset of the batch in the file, `records` its text in bytes.
Batch = namedtuple("Batch", "at records")


def read(path):
    """The bytes of a file."""
    try:
        with open(path, "rb") as file:
            return file.read()
    except OSError as error:
        raise Refusal(f"{shown(path)}: cannot be read: {why(error)}") from None


def is_unmade(data):
    """Whether an edit file has no batches because it was never made to its end."""
    return len(data) < 2 or (len(data) <= BEGIN + 1 and data[:1] != OPEN)


def batches_of(data, path):
    """The batches of an edit file, in order. What stands behind the last closing byte does not count."""
    if is_unmade(data):
        return []
    if data[:BEGIN] != OPEN + SIGNATURE:
        raise Refusal(f"{shown(path)}: not an edit file at 0")
    found, at = [], BEGIN
    while data[at : at + 1] == OPEN:
        end = end_of(data, at)
        if end > len(data) or end == at + FRAME:
            raise Refusal(f"{shown(path)}: not an edit file at {at}")
        found.append(Batch(at, data[at + FRAME : end]))
        at = end
    if at == len(data):
        raise Refusal(f"{shown(path)}: not an edit file at {at}")
    return found


def end_of(data, at):
    """The offset after the batch whose open byte, or the closing byte in its place, is at an offset."""
    return at + FRAME + int.from_bytes(data[at + 1 : at + FRAME], "big")


def closing_of(found):
    """The offset of the closing byte after these batches."""
    return found[-1].at + FRAME + len(found[-1].records) if found else BEGIN


def lost_batches(data, closing):
    """How many whole batches follow the closing byte. An interrupted change leaves one at most."""
    count, at = 0, closing
    while at < len(data):
        end = end_of(data, at)
        if end >= len(data) or not is_batch(Batch(at, data[at + FRAME : end])):
            break
        count += 1
        at = end
        if data[at : at + 1] != OPEN:
            break
    return count


def is_batch(batch):
    """Whether a batch has records."""
    try:
        return bool(rows_of(batch, ""))
    except Refusal:
        return False


def rows_of(batch, path):
    """The records of a batch, each as cells by column. There is one at least, and each has a cell for each column."""
    try:
        lines = csv.DictReader(io.StringIO(batch.records.decode("utf-8"), newline=""))
        rows = list(lines)
        if not rows or lines.fieldnames[:3] != HEADER[:3] or any(None in row or None in row.values() for row in rows):
            raise ValueError(lines.fieldnames)
        return rows
    except (ValueError, csv.Error):
        raise Refusal(f"{shown(path)}: not an edit file at {batch.at}") from None


def edits_of(found, path):
    """How many edits the batches have."""
    return sum(len(rows_of(batch, path)) for batch in found)


def library_in(path):
    """What an edit file holds: nothing if there is no such file."""
    return library_of(batches_of(read(path), path), path) if os.path.exists(path) else Library()


def library_of(found, path):
    """What the share holds after all batches."""
    library = Library()
    for batch in found:
        try:
            for row in rows_of(batch, path):
                apply(library, row)
        except (ValueError, KeyError, TypeError):
            raise Refusal(f"{shown(path)}: not an edit file at {batch.at}") from None
    return library


def new_file(library):
    """The bytes of an edit file that begins with a library."""
    payloads = list(batches(list(differences(Library(), library))))
    frames = (OPEN + len(payload).to_bytes(4, "big") + payload for payload in payloads)
    return OPEN + SIGNATURE + b"".join(frames) + CLOSED


def used(rows):
    """Lines with the records of a batch, and with only those columns that one of them uses."""
    names = [name for name in rows[0] if name in ("op", "kind", "id") or any(row[name] for row in rows)]
    return b"".join(map(line_of, [names] + [[row[name] for name in names] for row in rows]))


def summary(data, path):
    """Yields a line for each batch, and then those for all of them."""
    found, edits = batches_of(data, path), 0
    for count, batch in enumerate(found, 1):
        rows = rows_of(batch, path)
        edits += len(rows)
        yield f"batch {count} at {batch.at}: {len(rows)} records, {len(batch.records)} bytes"
    library = library_of(found, path)
    yield f"{len(found)} batches, {edits} of {MOST_EDITS} edits, {len(data)} bytes"
    yield f"holds {len(library.items)} items and {len(library.lists)} lists"
    yield from warnings(data, found, edits)


def warnings(data, found, edits):
    """Yields a line for what follows the last batch, and one if the file is nearly full."""
    closing = closing_of(found)
    if not is_unmade(data) and len(data) > closing + 1:
        lost = lost_batches(data, closing)
        yield f"{len(data) - closing - 1} bytes after the closing byte at {closing} do not count; whole batches in them: {lost}"
        if lost > 1:
            yield f"an interrupted change leaves one at most: byte {closing} was 1, and somebody changed it"
    if edits >= WARNED_PART * MOST_EDITS:
        yield f"{100 * edits // MOST_EDITS} % of the edits are used: renew the file"


@contextlib.contextmanager
def owned(path):
    """Keeps a file locked as a share does, so that no share uses it meanwhile. Refuses a file that is in use."""
    try:
        file = open(path, "rb")
    except OSError as error:
        raise Refusal(f"{shown(path)}: cannot be read: {why(error)}") from None
    with file:
        try:
            fcntl.flock(file, fcntl.LOCK_EX | fcntl.LOCK_NB)
        except BlockingIOError:
            raise Refusal(f"{shown(path)}: another program has it open, as a share that runs") from None
        except OSError:
            pass  # a file system without locks is taken as it is
        yield


def written(data, path):
    """Writes a file, or says why it can't. A file of this name that is in use stays."""
    try:
        with owned(path) if os.path.isfile(path) else contextlib.nullcontext():
            write(data, path)
    except OSError as error:
        raise Refusal(f"{shown(path)}: cannot be written: {why(error)}") from None


def begin_anew(library, path):
    """Writes records with which a share begins. There may be more than fit one batch."""
    parts = list(batches(list(differences(Library(), library)))) or [line_of(["op", "kind", "id"])]
    if len(parts) > 1:
        raise Refusal(f"{len(parts)} batches are needed: use --renew")
    written(parts[0], path)


def keep(path, other):
    """Gives a file a second name, in the place of what has it. So the file is there at each moment."""
    beside = f"{other}.{os.getpid()}.new"
    os.link(path, beside)
    os.replace(beside, other)
    sync_folder(os.path.dirname(other))


def prepare(path):
    """Renews a file that has many edits, and copies one that was damaged. Yields a line for what was done."""
    path = os.path.realpath(path)
    if not os.path.exists(path):
        return
    with owned(path):
        data = read(path)
        found = batches_of(data, path)
        try:
            if lost_batches(data, closing_of(found)) > 1:
                write(data, f"{path}.damaged")
                yield f"{shown(path)}: batches after the closing byte do not count: copied to {shown(path)}.damaged"
            edits = edits_of(found, path)
            if edits > MANY_EDITS:
                yield renewed(found, path, edits)
        except OSError as error:
            raise Refusal(f"{shown(path)}: cannot be renewed: {why(error)}") from None


def renewed(found, path, edits):
    """Puts a file that begins with what these batches hold into the place of theirs. Returns the line that says so."""
    data, old = new_file(library_of(found, path)), f"{path}.old"
    left = edits_of(batches_of(data, path), path)
    if left == edits:
        return f"{shown(path)}: {left} edits, and none to leave out"
    with replaced(path, data):
        keep(path, old)
    return f"{shown(path)}: renewed with {left} edits: the file as it was is {shown(old)}"


def run(asked):
    """Does what the arguments ask for."""
    if asked.before_start:
        for line in prepare(asked.file):
            print(line)
    elif asked.renew:
        with owned(asked.file):
            written(new_file(library_in(asked.file)), asked.renew)
    else:
        show(asked, read(asked.file))


def show(asked, data):
    """Prints or writes what a file holds."""
    found = batches_of(data, asked.file)
    if asked.batch is not None:
        if not 1 <= asked.batch <= len(found):
            raise Refusal(f"{shown(asked.file)}: has {len(found)} batches")
        sys.stdout.buffer.write(used(rows_of(found[asked.batch - 1], asked.file)))
    elif asked.records:
        begin_anew(library_of(found, asked.file), asked.records)
    else:
        for line in summary(data, asked.file):
            print(line)


def words():
    """Reads the arguments."""
    form = argparse.RawDescriptionHelpFormatter
    parser = argparse.ArgumentParser(description=__doc__, formatter_class=form)
    parser.add_argument("file", metavar="FILE")
    what = parser.add_mutually_exclusive_group()
    what.add_argument("--batch", type=int, metavar="N", help="print the records of one batch")
    what.add_argument("--records", metavar="OUTPUT", help="write the records of what the file holds")
    what.add_argument("--renew", metavar="NEW", help="write an edit file that begins with what the file holds")
    what.add_argument("--before-start", action="store_true", help="renew the file itself if it has many edits")
    asked = parser.parse_args()
    for path in (asked.records, asked.renew):
        if path and os.path.realpath(path) == os.path.realpath(asked.file):
            parser.error("the new file has to be another one")
    return asked


def main():
    try:
        run(words())
    except Refusal as refusal:
        print(refusal, file=sys.stderr)
        return 1
    return 0


if __name__ == "__main__":
    sys.exit(main())
