// The dialog that shows all that a share has of one song.

import { PROPERTIES, FACETS, clock, valuesOf } from "./catalogue.js";
import { element } from "./table.js";

const day = (seconds) => new Date(seconds * 1000).toLocaleDateString();

/** What is shown of a song, in this order: the DAAP name, a label, and how the value is written. */
const FACTS = [
  ["daap.songartist", "Artist"],
  ["daap.songalbum", "Album"],
  ["daap.songalbumartist", "Album artist"],
  ["daap.songcomposer", "Composer"],
  ["daap.songgenre", "Genre"],
  ["daap.songyear", "Year"],
  ["daap.songdiscnumber", "Disc"],
  ["daap.songtracknumber", "Track"],
  ["daap.songtime", "Time", clock],
  ["daap.songgrouping", "Grouping"],
  ["daap.songcomment", "Comment"],
  ["daap.songformat", "Format"],
  ["daap.songbitrate", "Bit rate", (value) => `${value} kbit/s`],
  ["daap.songsamplerate", "Sample rate", (value) => `${value} Hz`],
  ["daap.songsize", "Size", (value) => `${(value / 1e6).toFixed(1)} MB`],
  ["daap.songbeatsperminute", "Beats per minute"],
  ["daap.songuserrating", "Rating", (value) => `${value} of 100`],
  ["daap.songdateadded", "Added", day],
  ["daap.songdatemodified", "Changed", day],
];

export class Details {
  #song = null;

  /**
   * `narrow` is called with a facet and a value when the reader chooses it. `left` is called with the song when the
   * dialog was closed and its focus is lost, since the row that had it before was drawn anew.
   */
  constructor(dialog, share, narrow, left) {
    this.dialog = dialog;
    this.share = share;
    this.narrow = narrow;
    dialog.addEventListener("click", (event) => {
      if (event.target === dialog) dialog.close();
    });
    dialog.addEventListener("close", () => {
      const focused = document.activeElement;
      if (focused === document.body || dialog.contains(focused)) left(this.#song);
    });
  }

  /** Shows a song: at once what the page holds of it, and then what the share has, unless another song is shown by then. */
  async open(song) {
    this.#song = song;
    this.dialog.querySelector("h2").textContent = song.title || "Untitled";
    this.#fill(Object.entries(PROPERTIES).map(([name, daap]) => [daap, song[name]]));
    this.dialog.showModal();
    const reply = await this.share.ask("databases/1/items", { query: `'dmap.itemid:${song.id}'`, meta: "all" });
    const row = reply.member("mlcl", [])[0];
    if (row && this.#song === song) this.#fill(row.value.map(({ code, value }) => [this.share.nameOf(code), value]));
  }

  #fill(pairs) {
    const values = new Map(pairs);
    const facts = this.dialog.querySelector("dl");
    const focused = facts.contains(document.activeElement) ? document.activeElement.textContent : null;
    facts.replaceChildren();
    for (const [name, label, write = String] of FACTS) {
      if (!values.get(name)) continue;
      const [term, value] = [element("dt"), element("dd")];
      const facet = FACETS.find((one) => PROPERTIES[one] === name);
      term.textContent = label;
      if (facet) value.append(...this.#choices(facet, values.get(name)));
      else value.textContent = write(values.get(name));
      facts.append(term, value);
    }
    if (focused !== null) this.#focus(facts, focused);
  }

  /** Gives the focus to the button with a text, or to the one that closes the dialog. */
  #focus(facts, text) {
    const same = [...facts.querySelectorAll("button")].find((button) => button.textContent === text);
    (same ?? this.dialog.querySelector("form button")).focus();
  }

  /** Returns a button for each value under a facet, by which one can narrow. */
  #choices(facet, text) {
    return valuesOf(text, facet).map((value) => {
      const button = element("button", { type: "button", title: `Show only this ${facet}` });
      button.textContent = value;
      button.addEventListener("click", () => {
        this.dialog.close();
        this.narrow(facet, value);
      });
      return button;
    });
  }
}
