// The table of songs. However many songs there are, only the rows near the window are in the document; above and below
// them stands one empty row each, as high as the rows that are left out, so that the page scrolls as if all were there.

import { clock } from "./catalogue.js";

const CELLS = ["track", "title", "artist", "album", "genre", "year", "time"];

const BEYOND = 12; // rows that are kept above and below the window

export class SongTable {
  #songs = [];
  #fresh = new Set();
  #drawn = new Map();
  #range = "";
  #height = 0;

  /** `open` is called with the song whose row was chosen. */
  constructor(table, open) {
    this.table = table;
    this.body = table.tBodies[0];
    this.body.addEventListener("click", (event) => {
      const row = event.target.closest("tr.song");
      if (row) open(row.song);
    });
    this.body.addEventListener("keydown", (event) => this.#step(event));
    addEventListener("scroll", () => requestAnimationFrame(() => this.#draw()), { passive: true });
    addEventListener("resize", () => this.#measure());
  }

  /** Shows songs, and marks those in the set `fresh`. */
  show(songs, fresh) {
    this.#songs = songs;
    this.#fresh = fresh;
    this.#range = "";
    this.table.setAttribute("aria-rowcount", songs.length + 1);
    if (this.#height === 0 && songs.length > 0) this.#measure();
    else this.#draw();
  }

  /** Gives the focus to a song's title, or to the first title if the song's row is not in the document. */
  focus(song) {
    const row = this.#rowOf(song.id) ?? this.body.querySelector("tr.song");
    row?.querySelector("button").focus();
  }

  /** Brings the first row below the header, where the window is further down. */
  toTop() {
    const top = this.table.getBoundingClientRect().top;
    if (top < 0) scrollBy(0, top);
  }

  #measure() {
    if (this.#songs.length === 0) return;
    this.#drawn.clear();
    this.body.replaceChildren(this.#row(0));
    this.#height = this.body.rows[0].getBoundingClientRect().height;
    this.#range = "";
    this.#draw();
  }

  #draw() {
    const height = this.#height || 1;
    const above = Math.floor(-this.body.getBoundingClientRect().top / height);
    const first = Math.max(0, Math.min(above, this.#songs.length) - BEYOND);
    const last = Math.min(this.#songs.length, Math.max(above, 0) + Math.ceil(innerHeight / height) + BEYOND);
    if (this.#range === `${first} ${last}`) return;
    this.#range = `${first} ${last}`;
    const focused = document.activeElement;
    const focusedSong = this.body.contains(focused) ? focused.closest("tr.song")?.song : undefined;
    const rows = [];
    for (let place = first; place < last; place += 1) rows.push(this.#row(place));
    this.#drawn = new Map(rows.map((row) => [Number(row.dataset.place), row]));
    this.body.replaceChildren(space(first * height), ...rows, space((this.#songs.length - last) * height));
    // The focus stays with the song, also if its row is another one now.
    if (focusedSong) this.#rowOf(focusedSong.id)?.querySelector("button").focus({ preventScroll: true });
  }

  #rowOf(id) {
    return [...this.#drawn.values()].find((row) => row.song.id === id);
  }

  /** Returns the row of the song at a place, the one that is drawn already where it is of this song. */
  #row(place) {
    const song = this.#songs[place];
    const drawn = this.#drawn.get(place);
    const row = drawn?.song === song ? drawn : this.#newRow(song);
    row.className = `song${place % 2 ? " even" : ""}${this.#fresh.has(song.id) ? " fresh" : ""}`;
    row.dataset.place = place;
    row.setAttribute("aria-rowindex", place + 2);
    return row;
  }

  #newRow(song) {
    const row = element("tr", { role: "row" });
    row.song = song;
    for (const name of CELLS) {
      const cell = element("td", { role: "cell", class: name });
      const text = name === "time" ? clock(song.time) : String(song[name] || "");
      if (name === "title") cell.append(titleButton(text));
      else cell.textContent = cell.title = text;
      row.append(cell);
    }
    return row;
  }

  /** Moves the focus from title to title by the arrow keys. */
  #step(event) {
    const way = { ArrowDown: 1, ArrowUp: -1 }[event.key];
    const row = event.target.closest("tr.song");
    if (!way || !row || event.altKey || event.ctrlKey || event.metaKey) return;
    const next = this.#drawn.get(Number(row.dataset.place) + way);
    event.preventDefault();
    next?.querySelector("button").focus();
  }
}

/** Makes an element with attributes. */
export function element(name, attributes = {}) {
  const made = document.createElement(name);
  for (const [attribute, value] of Object.entries(attributes)) made.setAttribute(attribute, value);
  return made;
}

function titleButton(text) {
  const button = element("button", { type: "button", title: text, "aria-haspopup": "dialog" });
  button.textContent = text || "Untitled";
  return button;
}

function space(height) {
  const row = element("tr", { class: "space", "aria-hidden": "true" });
  const cell = element("td", { colspan: CELLS.length });
  row.style.height = cell.style.height = `${height}px`;
  row.append(cell);
  return row;
}
