// Songs as the page holds them: how they are made of rows, searched, narrowed, counted and sorted.

/** The properties of a song, by the DAAP names under which a share lists them. */
export const PROPERTIES = {
  title: "dmap.itemname",
  artist: "daap.songartist",
  album: "daap.songalbum",
  albumArtist: "daap.songalbumartist",
  genre: "daap.songgenre",
  composer: "daap.songcomposer",
  year: "daap.songyear",
  disc: "daap.songdiscnumber",
  track: "daap.songtracknumber",
  time: "daap.songtime",
};

/** By what songs can be narrowed. */
export const FACETS = ["genre", "artist", "album"];

const NUMBERS = new Set(["year", "disc", "track", "time"]);

const BY_ALBUM = ["artist", "album", "disc", "track", "title"];

const LETTERS = { ø: "o", ł: "l", đ: "d", ð: "d", þ: "th", ß: "ss", æ: "ae", œ: "oe", ı: "i" };

const collator = new Intl.Collator(undefined, { numeric: true, sensitivity: "base" });

/** Returns a text without case and accents, as the search compares it. */
export function folded(text) {
  const plain = text.toLowerCase().normalize("NFD").replace(/\p{M}/gu, "");
  return plain.replace(/[øłđðþßæœı]/g, (letter) => LETTERS[letter]);
}

/** Returns a function that makes a song of a row's tag, with the codes that a share lists. */
export function songMaker(codeOf) {
  const wanted = Object.entries(PROPERTIES).map(([name, daap]) => [codeOf(daap), name]);
  const names = new Map(wanted.filter(([code]) => code !== undefined));
  const idCode = codeOf("dmap.itemid");
  return (tag) => {
    const song = { id: tag.member(idCode) };
    for (const name of Object.keys(PROPERTIES)) song[name] = NUMBERS.has(name) ? 0 : "";
    for (const { code, value } of tag.value) if (names.has(code)) song[names.get(code)] = value;
    song.values = Object.fromEntries(FACETS.map((facet) => [facet, valuesOf(song[facet], facet)]));
    song.words = folded([song.title, song.artist, song.album, song.albumArtist, song.genre, song.composer, song.year || ""].join("\n"));
    return song;
  };
}

/** Returns the values that a text has under a facet. Several artists or genres are one text, joined by `; `. */
export function valuesOf(text, facet) {
  return facet === "album" ? [text] : text.split("; ");
}

/** The songs of a share in an order, and what of them is to be seen. */
export class Catalogue {
  #ranks = new Map();
  #sorted = null;

  /** `songs` is a map of songs by their ids, which this reads and never changes. */
  constructor(songs) {
    this.songs = songs;
  }

  /** Has everything counted and sorted anew, since the songs or the playlist changed. */
  change() {
    this.#ranks.clear();
    this.#sorted = null;
  }

  /**
   * Returns the songs to be seen, in their order, and how many songs each facet's values have among those that all
   * other conditions leave. `wish` has `search`, a value or `null` for each facet, `sort` (`null` or a column and
   * whether it is descending) and `members`, the ids of a playlist in its order or `null`.
   */
  view(wish) {
    const words = folded(wish.search).split(/\s+/).filter((word) => word !== "");
    const asked = FACETS.filter((facet) => wish[facet] !== null);
    const facets = Object.fromEntries(FACETS.map((facet) => [facet, new Map()]));
    const shown = [];
    for (const song of this.#order(wish)) {
      if (!words.every((word) => song.words.includes(word))) continue;
      const failed = asked.filter((facet) => !song.values[facet].includes(wish[facet]));
      if (failed.length === 0) shown.push(song);
      const counted = failed.length === 0 ? FACETS : failed.length === 1 ? failed : [];
      for (const facet of counted) count(facets[facet], song.values[facet]);
    }
    return { shown, facets };
  }

  #order({ members, sort }) {
    const kept = this.#sorted;
    if (kept?.members === members && kept.sort === sort) return kept.songs;
    const songs = members ? members.map((id) => this.songs.get(id)).filter(Boolean) : [...this.songs.values()];
    if (sort) songs.sort(this.#comparing([sort.column, ...BY_ALBUM], sort.descending));
    else if (!members) songs.sort(this.#comparing(BY_ALBUM, false));
    this.#sorted = { songs, members, sort };
    return songs;
  }

  /** Returns a comparison by columns, of which the first may be descending. What is not known comes last. */
  #comparing(columns, isDescending) {
    return (one, other) => {
      for (const [place, column] of columns.entries()) {
        if (one[column] === other[column]) continue;
        if (!one[column]) return 1;
        if (!other[column]) return -1;
        const way = this.#way(column, one[column], other[column]);
        if (way !== 0) return place === 0 && isDescending ? -way : way;
      }
      return one.id - other.id;
    };
  }

  #way(column, one, other) {
    if (NUMBERS.has(column)) return one - other;
    const ranks = this.#rank(column);
    return ranks.get(one) - ranks.get(other);
  }

  /** Returns the place of each text of a column among all of them. */
  #rank(column) {
    if (!this.#ranks.has(column)) {
      const texts = sortedTexts(new Set([...this.songs.values()].map((song) => song[column])));
      this.#ranks.set(column, new Map(texts.map((text, place) => [text, place])));
    }
    return this.#ranks.get(column);
  }
}

/** Returns texts in the order of the reader's language, in which the numbers in them count as numbers. */
export function sortedTexts(texts) {
  return [...texts].sort(collator.compare);
}

function count(counts, values) {
  for (const value of values) counts.set(value, (counts.get(value) ?? 0) + 1);
}

/** Returns milliseconds as `3:58`, or `1:02:03` from an hour on; nothing for 0. */
export function clock(milliseconds) {
  if (!milliseconds) return "";
  const seconds = Math.round(milliseconds / 1000);
  const [hours, minutes, rest] = [Math.floor(seconds / 3600), Math.floor(seconds / 60) % 60, seconds % 60];
  const two = (number) => String(number).padStart(2, "0");
  return hours > 0 ? `${hours}:${two(minutes)}:${two(rest)}` : `${minutes}:${two(rest)}`;
}

/** Returns milliseconds in words, as `3 days 4 hours`, `1 hour`, `12 minutes` or `40 seconds`; nothing for 0. */
export function span(milliseconds) {
  const isShort = milliseconds < 60000;
  const minutes = isShort ? 0 : Math.round(milliseconds / 60000);
  const seconds = isShort ? Math.ceil(milliseconds / 1000) : 0;
  const parts = [[Math.floor(minutes / 1440), "day"], [Math.floor(minutes / 60) % 24, "hour"], [minutes % 60, "minute"], [seconds, "second"]];
  const first = parts.findIndex(([number]) => number > 0);
  const shown = first < 0 ? [] : parts.slice(first, first + 2).filter(([number]) => number > 0);
  return shown.map(([number, unit]) => `${number.toLocaleString()} ${unit}${number === 1 ? "" : "s"}`).join(" ");
}
