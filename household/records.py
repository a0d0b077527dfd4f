#!/usr/bin/python3
"""Writes the records of a folder of music files, for `daapshare serve` and `daapshare edit`, or sends them to a share.

    records.py FOLDER --output library.csv                        all songs and playlists
    records.py FOLDER --output library.csv --send EDIT            sends what changed, and replaces library.csv
    records.py FOLDER --since library.csv --output changes.csv    what changed since those records were written
    records.py FOLDER --since-file edits --output changes.csv     what the edit file of a share lacks

Without --output the script writes to standard output. It reads tags by mutagen (Debian's package is python3-mutagen). It
makes the id of a song from the path of its file below the folder: a file keeps its id while it has its path, and a renamed
file is a new song. Each .m3u and .m3u8 file is a playlist with the name of the file. If several have one name, each goes by its
path below the folder. A folder that a link leads to is read too, but no folder twice.

With --send the file of --output says what the share has: the script reads the folder once, sends the difference to the edit
address of the share, such as 127.0.0.1:3690, and replaces the file when the share has acknowledged it, batch by batch. If the
share can't be reached or refuses a batch, the file still says what the share has, and the next run sends the rest. If there is
no such file, the script sends everything. Standard output gets `revision N: P put, D dropped`, or `unchanged`.

A song whose file is there but can't be read keeps its row: the one in the records or the edit file that are compared, or in the
file that --output replaces. If more than a quarter of the songs there, and more than five, would be dropped, the script writes
and sends nothing, unless --drop-many is given. A song that is there under another path does not count as dropped.

Standard error gets the files that are left out, and how many songs there are. If it is a terminal, it gets each second how many
files were read. Status 0: the records are written or sent. Status 1: they are not, or not all, and the last line says why.
Status 2: the arguments are wrong.
"""

import argparse
import codecs
import contextlib
import functools
import os
import stat
import sys
import time
import unicodedata
import urllib.parse
import zlib
from collections import Counter

try:
    import mutagen
    from mutagen._vorbis import VCommentDict
    from mutagen.apev2 import APETextValue, APEv2
    from mutagen.asf import ASFTags
    from mutagen.id3 import ID3
    from mutagen.mp4 import MP4, Atoms, MP4Tags
    from mutagen.oggtheora import OggTheora
except ModuleNotFoundError:
    sys.exit("mutagen is missing, which reads the tags: install python3-mutagen")

from catalogue import (
    MOST_BYTES,
    MOST_RECORDS,
    Library,
    Playlist,
    Refusal,
    apply_batch,
    batches,
    counts,
    differences,
    is_replaced,
    lines_of,
    lost_count,
    read_records,
    replaced,
    shown,
    text_of,
    why,
    write,
)
from edit_file import library_in
from share_client import Connection, address

MOST_LISTS = 1_024  # of a share
MOST_TEXT = 255  # bytes of a text
MOST_ID = 2**31 - 1  # players show larger ids as negative numbers
FEW_SONGS = 5  # so many may be dropped without a question

PLAYLISTS = {"m3u", "m3u8"}
OTHER_PLAYLISTS = {"asx", "pls", "wpl", "xspf"}
# A file with one of these suffixes is named if it can't be read. Any other is a song if mutagen knows it, and else ignored.
MUSIC = set(
    "3gp aac ac3 aif aifc aiff ape asf au avi dff dsf eac3 flac m4a m4b m4p m4v mid midi mka mkv mov mp+ mp1 mp2 mp3 mp4 mpc"
    " oga ofr ofs ogg ogv opus ra rm shn spx tak tta wav weba webm wma wmv wv".split()
)

SONG, FILM = "1", "2"  # values of com.apple.itunes.mediakind
MEDIA_KINDS = {0: FILM, 2: "8", 6: "32", 9: FILM, 10: "64", 21: "4"}  # by the values of the MP4 tag `stik`


# Texts and numbers of tags


def clean(text):
    """A text for a cell: without line breaks and control characters, cut between two characters to at most 255 bytes."""
    text = "".join(c for c in " ".join(text.split()) if c >= " " and c != "\x7f")
    return text.encode("utf-8", "ignore")[:MOST_TEXT].decode("utf-8", "ignore")


def first(texts):
    """A cell of the first text of a tag."""
    return clean(texts[0])


def joined(texts):
    """A cell of all texts of a tag."""
    return clean("; ".join(texts))


def number(texts):
    """A cell of the number at the start of a tag, such as `3` in `3/12`. It is empty for 0."""
    text = texts[0].strip()
    digits = text[: next((i for i, c in enumerate(text) if c not in "0123456789"), len(text))]
    return capped(int(digits[:9] or 0), 65_535)


def year(texts):
    """A cell of the year at the start of a date, such as `1905` in `1905-04-02`."""
    return number([texts[0].strip()[:4]])


def flag(texts):
    """A cell with `1` if a tag says yes, and an empty one if not."""
    return "1" if texts[0].strip().lower() in ("1", "true", "yes") else ""


def capped(value, most):
    """A cell of a number, which is empty for 0."""
    return str(min(value, most)) if value > 0 else ""


TAG_KINDS = (ID3, MP4Tags, VCommentDict, ASFTags, APEv2)
TAG_KEYS = {  # by DAAP name: the function that makes a cell of a tag's texts, and the key in each of these kinds of tags
    "dmap.itemname": (first, "TIT2", "\xa9nam", "title", "Title", "Title"),
    "daap.songartist": (joined, "TPE1", "\xa9ART", "artist", "Author", "Artist"),
    "daap.songalbum": (first, "TALB", "\xa9alb", "album", "WM/AlbumTitle", "Album"),
    "daap.songalbumartist": (joined, "TPE2", "aART", "albumartist", "WM/AlbumArtist", "Album Artist"),
    "daap.songgenre": (joined, "TCON", "\xa9gen", "genre", "WM/Genre", "Genre"),
    "daap.songcomposer": (joined, "TCOM", "\xa9wrt", "composer", "WM/Composer", "Composer"),
    "daap.songyear": (year, "TDRC", "\xa9day", "date", "WM/Year", "Year"),
    "daap.songtracknumber": (number, "TRCK", "trkn", "tracknumber", "WM/TrackNumber", "Track"),
    "daap.songdiscnumber": (number, "TPOS", "disk", "discnumber", "WM/PartOfSet", "Disc"),
    "daap.songcompilation": (flag, "TCMP", "cpil", "compilation", "WM/IsCompilation", "Compilation"),
}
OTHER_KEYS = {"albumartist": "album artist", "date": "year", "Album Artist": "albumartist"}  # used if a key is not there


def texts_of(value):
    """The texts of a tag, for which mutagen has many types."""
    value = getattr(value, "genres", None) or getattr(value, "text", value)
    values = list(value) if isinstance(value, (list, APETextValue)) else [value]
    return [str(one[0] if isinstance(one, tuple) else one) for one in values]


def cells_of(tags):
    """The cells of a file's tags."""
    column = next((i for i, kind in enumerate(TAG_KINDS, 1) if isinstance(tags, kind)), None)
    if column is None:
        return {}
    cells = {}
    for name, row in TAG_KEYS.items():
        value = tags.get(row[column])
        if value is None and row[column] in OTHER_KEYS:
            value = tags.get(OTHER_KEYS[row[column]])
        texts = [] if value is None else texts_of(value)
        cells[name] = row[0](texts) if texts else ""
    return cells


# Files


def name_of(path):
    """The name of a file without its suffix, read as UTF-8 or else as Latin-1."""
    name = os.path.splitext(os.fsencode(os.path.basename(path)))[0]
    try:
        return clean(name.decode("utf-8"))
    except UnicodeDecodeError:
        return clean(name.decode("latin-1"))


def suffix_of(path):
    """The suffix of a file in lower case, without the dot."""
    return os.path.splitext(path)[1][1:].lower()


def has_pictures(file):
    """Whether an MP4 file has a video track."""
    file.seek(0)
    for track in Atoms(file)[b"moov"].findall(b"trak"):
        try:
            handler = track[b"mdia", b"hdlr"]
        except KeyError:
            continue
        if handler.read(file)[1][8:12] == b"vide":
            return True
    return False


def media_kind(music, file, suffix):
    """The value of com.apple.itunes.mediakind, by the file's tag if it has one."""
    if not isinstance(music, MP4):
        return FILM if isinstance(music, OggTheora) or suffix == "wmv" else SONG
    kind = music.get("stik")
    if kind:
        return MEDIA_KINDS.get(kind[0], SONG)
    # The video track of an .m4a or .m4b has the pictures of its chapters.
    return FILM if suffix not in ("m4a", "m4b") and has_pictures(file) else SONG


def read_item(path):
    """Reads the item of a file. Returns None if mutagen does not know the format, and raises what mutagen raises."""
    suffix = suffix_of(path)
    with open(path, "rb") as file:
        music = mutagen.File(file)
        if music is None:
            return None
        cells = cells_of(music.tags)
        cells["com.apple.itunes.mediakind"] = media_kind(music, file, suffix)
    cells["dmap.itemname"] = cells.get("dmap.itemname") or name_of(path)
    cells["dmap.itemkind"] = "2"
    cells["daap.songformat"] = clean(suffix)
    cells["daap.songtime"] = capped(int((getattr(music.info, "length", 0) or 0) * 1000), 4_294_967_295)
    return {name: cell for name, cell in cells.items() if cell}


def entries_of(path):
    """The entries of a playlist file as bytes: its lines that are neither empty nor comments."""
    with open(path, "rb") as file:
        text = file.read()
    if text.startswith(codecs.BOM_UTF8):
        text = text[len(codecs.BOM_UTF8) :]
    return [line for line in text.splitlines() if line.strip() and not line.startswith(b"#")]


def meanings_of(entry):
    """The paths that an entry of a playlist may be, the likeliest first."""
    if entry.lower().startswith(b"file://"):
        entry = b"/" + urllib.parse.unquote_to_bytes(entry[7:].partition(b"/")[2])
    forms = [entry, entry.strip(), entry.replace(b"\\", b"/"), urllib.parse.unquote_to_bytes(entry)]
    return forms + [form.decode("latin-1").encode("utf-8") for form in forms]


def alike(path):
    """What paths have in common that differ only in the case of letters, or in how accents are encoded."""
    text = path.decode("utf-8", "surrogateescape")
    return unicodedata.normalize("NFC", unicodedata.normalize("NFC", text).casefold())


def is_in(path, folder):
    """Whether a path is that of a folder, or below it."""
    return path == folder or path.startswith(folder.rstrip("/") + "/")


class Walk:
    """A walk through a folder and the folders that its links lead to. It enters no folder twice, so it ends."""

    def __init__(self, top):
        self.top = top
        self.real_top = os.path.realpath(top)
        self.entered = set()  # the device and the inode of each folder
        self.links = {}  # by the real path of a folder that a link leads to: the path of the link
        self.lines = []  # one for each link that is not followed
        self.errors = []  # of folders that can't be read

    def paths(self):
        """The paths of all files, folder by folder, and sorted in each."""
        paths = []
        self.enter(self.top)
        for parent, folders, names in os.walk(self.top, onerror=self.errors.append, followlinks=True):
            folders[:] = [name for name in sorted(folders) if self.enter(os.path.join(parent, name))]
            paths += (os.path.join(parent, name) for name in sorted(names))
        return paths

    def enter(self, path):
        """Whether a folder is to be read."""
        try:
            state = os.stat(path)
        except OSError:
            return True  # the walk meets the error again, and reports it
        place = state.st_dev, state.st_ino
        is_link = path != self.top and os.path.islink(path)
        if place in self.entered or (is_link and self.is_related(path)):
            self.lines.append(f"{shown(path)}: not followed: it is read at another path, or holds the whole folder")
            return False
        self.entered.add(place)
        if is_link:
            self.links[os.path.realpath(path)] = path
        return True

    def is_related(self, link):
        """Whether a link leads to a folder in the top folder, which is read at its own path, or to one around it."""
        real = os.path.realpath(link)
        return is_in(real, self.real_top) or is_in(self.real_top, real)


def counted(paths):
    """Yields paths. Says each second how many there were, if standard error is a terminal."""
    shown_at = time.monotonic()
    for count, path in enumerate(paths):
        if time.monotonic() - shown_at >= 1 and sys.stderr.isatty():
            print(f"{count} of {len(paths)} files read", file=sys.stderr)
            shown_at = time.monotonic()
        yield path


class Folder:
    """A folder of music. It can be read again and again, and then reads only the files that changed."""

    def __init__(self, path):
        self.path = os.path.abspath(path)
        self.known = {}  # the stamp and the item of each file, by its path

    def item(self, path):
        """The item of a file, as `read_item` returns it. A pipe or a device is not opened."""
        state = os.stat(path)
        if not stat.S_ISREG(state.st_mode):
            raise OSError("not a plain file")
        stamp = (state.st_ino, state.st_size, state.st_mtime_ns, state.st_ctime_ns)
        if path not in self.known or self.known[path][0] != stamp:
            self.known.pop(path, None)
            self.known[path] = (stamp, read_item(path))
        return self.known[path][1]

    def walk(self):
        """Walks through the folder, and returns the walk and the paths of all files."""
        try:
            os.scandir(self.path).close()
        except (FileNotFoundError, NotADirectoryError):
            raise Refusal(f"{shown(self.path)}: not a folder") from None
        except OSError as error:
            raise Refusal(f"{shown(self.path)}: cannot be read: {why(error)}") from None
        walk = Walk(self.path)
        return walk, walk.paths()

    def read(self, old):
        """Reads the folder. What can't be read stays as it is in the library `old`."""
        walk, paths = self.walk()
        gone = (FileNotFoundError, NotADirectoryError)
        faults = [f"{shown(e.filename)}: cannot be read: {why(e)}" for e in walk.errors if not isinstance(e, gone)]
        reading = Reading(self, old, walk)
        for path in counted(paths):
            if suffix_of(path) not in PLAYLISTS | OTHER_PLAYLISTS:
                reading.add_file(path)
        if faults:
            reading.keep_items(faults)
        for path in paths:
            if suffix_of(path) in PLAYLISTS:
                reading.add_playlist(path)
            elif suffix_of(path) in OTHER_PLAYLISTS:
                reading.leave_out(path)
        reading.name_apart()
        if faults:
            reading.keep_lists()
        self.known = {path: self.known[path] for path in paths if path in self.known}
        return reading


class Reading:
    """What was read of a folder: its library, and a line for each file that is left out or kept as it was."""

    def __init__(self, folder, old, walk):
        self.folder = folder
        self.old = old
        self.library = Library()
        self.lines = list(walk.lines)
        self.songs_out = self.lists_out = 0
        self.ids = {}  # ids of items by the paths of their files, in bytes
        self.unseen = set()  # ids of items that are kept because their files may be in a folder that can't be read
        self.list_paths = {}  # paths of the playlist files, by the ids of their lists
        self.top = os.fsencode(folder.path)
        # The paths at which folders were read, by their real paths. The longest comes first, since one may be in another.
        homes = {**walk.links, walk.real_top: folder.path}
        self.homes = [(os.fsencode(real), os.fsencode(homes[real])) for real in sorted(homes, key=len, reverse=True)]

    def checksum(self, path):
        """The checksum of a path, given in bytes, below the folder."""
        return zlib.crc32(os.path.relpath(path, self.top)) & MOST_ID

    def free_id(self, path, taken, least):
        """The id of a path: its checksum, or the next number from `least` on that is not taken."""
        key = self.checksum(os.fsencode(path))
        while key < least or key in taken:
            key = (key + 1) & MOST_ID
        return key

    def add_file(self, path):
        """Adds the item of a file, or the old one if the file can't be read."""
        key = self.free_id(path, self.library.items, 1)
        try:
            item = self.folder.item(path)
            fault = "mutagen does not know it" if item is None and suffix_of(path) in MUSIC else None
        except FileNotFoundError as error:
            item, fault = None, why(error) if os.path.islink(path) else None
        except Exception as error:  # a broken file makes mutagen raise errors of many types
            item, fault = None, why(error)
        if fault is not None:
            item = self.old.items.get(key)
            if item is not None or suffix_of(path) in MUSIC:
                self.lines.append(f"{shown(path)}: {'left out' if item is None else 'kept as it was'}: {fault}")
                self.songs_out += item is None
        if item is not None:
            self.library.items[key] = item
            self.ids[os.fsencode(path)] = key

    def add_playlist(self, path):
        """Adds the list of a playlist file, or the old one if the file can't be read."""
        key = self.free_id(path, self.library.lists, 2)
        found, fault = None, None
        try:
            if len(self.library.lists) == MOST_LISTS:
                fault = f"a share has at most {MOST_LISTS} lists"
            elif not stat.S_ISREG(os.stat(path).st_mode):
                fault = "not a plain file"
            else:
                found = self.playlist(path)
        except OSError as error:
            gone = isinstance(error, FileNotFoundError) and not os.path.islink(path)
            found, fault = self.old.lists.get(key), None if gone else why(error)
        if fault is not None:
            self.lines.append(f"{shown(path)}: {'left out' if found is None else 'kept as it was'}: {fault}")
            self.lists_out += found is None
        if found is not None:
            self.library.lists[key] = found
            self.list_paths[key] = path

    def leave_out(self, path):
        """Names a playlist of another form."""
        self.lines.append(f"{shown(path)}: left out: a playlist, but neither .m3u nor .m3u8")
        self.lists_out += 1

    def name_apart(self):
        """Gives the lists whose files have one name the paths of the files as names."""
        counted = Counter(map(name_of, self.list_paths.values()))
        for key, path in self.list_paths.items():
            if counted[name_of(path)] > 1:
                name = clean(shown(os.path.relpath(path, self.folder.path)))
                self.library.lists[key] = self.library.lists[key]._replace(name=name)

    def playlist(self, path):
        """Reads a playlist file. Its list has the entries that are items of the folder."""
        entries = entries_of(path)
        keys = [self.entry_id(entry, os.path.dirname(os.fsencode(path))) for entry in entries]
        items = [key for key in keys if key is not None]
        if len(items) < len(entries):
            count = f"{len(entries) - len(items)} of {len(entries)}"
            self.lines.append(f"{shown(path)}: {count} entries are not songs of this folder")
        return Playlist(name_of(path), dict(enumerate(items, 1)))

    def entry_id(self, entry, parent):
        """The id of the item for an entry of a playlist in the folder `parent`, or None."""
        for form in meanings_of(entry):
            path = self.path_of(form, parent)
            if path in self.ids:
                return self.ids[path]
            if self.unseen and self.checksum(path) in self.unseen:
                return self.checksum(path)
        found = (self.ids_alike.get(alike(self.path_of(form, parent))) for form in meanings_of(entry))
        return next((key for key in found if key is not None), None)

    def path_of(self, form, parent):
        """The path at which the file of an entry was read, if it was."""
        path = os.path.normpath(os.path.join(parent, form))
        for real, home in self.homes:
            if path.startswith(real + b"/"):
                return home + path[len(real) :]
        return path

    @functools.cached_property
    def ids_alike(self):
        """The ids of items by what paths of files have in common that are alike. Of several files the first counts."""
        return {alike(path): key for path, key in reversed(self.ids.items())}

    def keep_items(self, faults):
        """Keeps all old items, because any of them may be in a folder that can't be read."""
        self.lines += (f"{fault}: nothing is dropped" for fault in faults)
        self.unseen = self.old.items.keys() - self.library.items.keys()
        self.library.items.update((key, self.old.items[key]) for key in self.unseen)

    def keep_lists(self):
        """Keeps all old lists, for the same reason."""
        self.library.lists = {**self.old.lists, **self.library.lists}

    def check(self, drop_many):
        """Refuses a library without songs, and without `drop_many` one that lacks over a quarter of the old songs."""
        if not self.library.items:
            raise Refusal(f"{shown(self.folder.path)}: no songs")
        dropped = lost_count(self.old, self.library)
        if dropped > FEW_SONGS and dropped * 4 > len(self.old.items) and not drop_many:
            count = f"{dropped} of {len(self.old.items)} songs"
            raise Refusal(f"{shown(self.folder.path)}: {count} would be dropped: more than a quarter needs --drop-many")

    def summary(self):
        """The lines that say how many songs and playlists there are."""
        yield f"{len(self.library.items)} songs, {self.songs_out} left out"
        if self.library.lists or self.lists_out:
            yield f"{len(self.library.lists)} playlists, {self.lists_out} left out"


# The command


def words():
    """Reads the arguments."""
    form = argparse.RawDescriptionHelpFormatter
    parser = argparse.ArgumentParser(description=__doc__, formatter_class=form)
    parser.add_argument("folder", metavar="FOLDER")
    what = parser.add_mutually_exclusive_group()
    what.add_argument("--since", metavar="RECORDS", help="write only the changes since these records")
    what.add_argument("--since-file", metavar="EDITS", help="write only what this edit file lacks; it need not be there yet")
    what.add_argument("--send", metavar="EDIT", type=address, help="send the changes since --output to this edit address")
    parser.add_argument("--output", metavar="FILE", help="replace this file, once all is written")
    parser.add_argument("--drop-many", action="store_true", help="even if that drops many of the songs")
    asked = parser.parse_args()
    for before in asked.since, asked.since_file:
        if before and asked.output and os.path.realpath(before) == os.path.realpath(asked.output):
            parser.error("--output has to be another file")
    if asked.send and (not asked.output or (os.path.exists(asked.output) and not is_replaced(asked.output))):
        parser.error("--send needs --output with a file, which says what the share has")
    return asked


def old_library(asked):
    """The library with which the folder is compared."""
    if asked.since_file:
        return library_in(asked.since_file)
    before = asked.since or (asked.output if is_replaced(asked.output) else None)
    return read_records(before) if before else Library()


def write_records(asked, old, new):
    """Writes all records, or those that lead from the old library to the new one."""
    head, lines = lines_of(list(differences(old if asked.since or asked.since_file else Library(), new)))
    data = head + b"".join(lines)
    try:
        write(data, asked.output)
    except OSError as error:
        raise Refusal(f"{shown(asked.output or 'standard output')}: cannot be written: {why(error)}") from None
    if len(lines) > MOST_RECORDS or len(data) > MOST_BYTES:
        print(f"{len(lines)} records of {len(data)} bytes: more than a batch takes, but --send sends them", file=sys.stderr)


def send(asked, old, new):
    """Sends the records that lead from the old library to the new one. Returns the line that says so.

    The file of --output has what the share acknowledged, at each moment: the next state is written beside it, then the batch
    is sent, and only then it is moved into place.
    """
    records, revision = list(differences(old, new)), None
    with contextlib.closing(Connection(asked.send)) as connection:
        for batch in batches(records):
            apply_batch(old, batch)
            try:
                with replaced(asked.output, text_of(old)):
                    revision = connection.edit(batch)
            except OSError as error:
                raise Refusal(f"{shown(asked.output)}: cannot be written: {why(error)}") from None
    put, dropped = counts(records)
    return f"revision {revision}: {put} put, {dropped} dropped" if records else "unchanged"


def run(asked):
    """Writes or sends the records, and says on standard error what was read."""
    old = old_library(asked)
    reading = Folder(asked.folder).read(old)
    for line in reading.lines:
        print(line, file=sys.stderr)
    reading.check(asked.drop_many)
    if asked.send:
        print(send(asked, old, reading.library), flush=True)
    else:
        write_records(asked, old, reading.library)
    for line in reading.summary():
        print(line, file=sys.stderr)


def main():
    asked = words()
    try:
        run(asked)
    except Refusal as refusal:
        print(refusal, file=sys.stderr)
        return 1
    return 0


if __name__ == "__main__":
    sys.exit(main())
