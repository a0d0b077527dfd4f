// The page: what the reader wishes to see, what is shown of it, and the loop that follows the share.

import { Share, Listing, Refused } from "./share.js";
import { Catalogue, FACETS, PROPERTIES, songMaker, sortedTexts, span } from "./catalogue.js";
import { SongTable, element } from "./table.js";
import { Details } from "./details.js";

const at = (id) => document.getElementById(id);
const NEWS_STAYS = 8000; // milliseconds
const LONGEST_PAUSE = 30000;
const HIDDEN_STAYS = 60000; // for how long a page that nobody sees goes on
const EVERYTHING = { search: "", list: 0, genre: null, artist: null, album: null };

const share = new Share(sayBusy);
const songs = new Listing("databases/1/items", "dmap.itemid", Object.values(PROPERTIES).join());
const catalogue = new Catalogue(songs.rows);
const table = new SongTable(at("songs"), (song) => details.open(song).catch(() => {}));
const narrow = (facet, value) => change({ ...EVERYTHING, [facet]: value });
const details = new Details(at("song"), share, narrow, (song) => table.focus(song));

let wish = readWish();
let lists = []; // the playlists, as { id, name, count }
let members = null; // the listing of the playlist that is chosen
let fresh = new Set(); // ids of songs that were put lately
let freshTimer = 0;
let isRead = false; // whether the songs came once

// ---- What the reader wishes, which the address of the page keeps

function readWish() {
  const kept = new URLSearchParams(location.hash.slice(1));
  const [, sign, column] = (kept.get("sort") ?? "").match(/^(-?)(\w+)$/) ?? [];
  const sort = column in PROPERTIES ? { column, descending: sign === "-" } : null;
  const facets = Object.fromEntries(FACETS.map((facet) => [facet, kept.get(facet)]));
  return { search: kept.get("search") ?? "", list: Number(kept.get("list")) || 0, sort, ...facets };
}

function keepWish() {
  const kept = new URLSearchParams();
  if (wish.search) kept.set("search", wish.search);
  if (wish.list) kept.set("list", wish.list);
  for (const facet of FACETS) if (wish[facet] !== null) kept.set(facet, wish[facet]);
  if (wish.sort) kept.set("sort", (wish.sort.descending ? "-" : "") + wish.sort.column);
  history.replaceState(null, "", `#${kept}`);
}

function change(part) {
  wish = { ...wish, ...part };
  keepWish();
  show();
  table.toTop();
}

/** Returns the sort that a column's header chooses next: ascending, descending, and then the usual order. */
function nextSort(column) {
  if (wish.sort?.column !== column) return { column, descending: false };
  return wish.sort.descending ? null : { column, descending: true };
}

// ---- What is shown

function show() {
  if (members === null || members.id !== wish.list) chooseList();
  const { shown, facets } = catalogue.view({ ...wish, members: members?.ids ?? null });
  for (const facet of FACETS) showFacet(facet, facets[facet]);
  showLists();
  showHeader();
  showSummary(shown);
  table.show(shown, fresh);
  if (at("search").value !== wish.search) at("search").value = wish.search;
}

function showFacet(facet, counts) {
  if (wish[facet] !== null && !counts.has(wish[facet])) counts.set(wish[facet], 0);
  const texts = sortedTexts([...counts.keys()].filter((text) => text !== ""));
  const choices = texts.map((text) => [`=${text}`, `${text} (${counts.get(text).toLocaleString()})`]);
  if (counts.has("")) choices.push(["=", `No ${facet} (${counts.get("").toLocaleString()})`]);
  fill(at(facet), [["", `All (${texts.length.toLocaleString()})`], ...choices], wish[facet] === null ? "" : `=${wish[facet]}`);
}

function showLists() {
  const choices = lists.map((list) => [String(list.id), `${list.name || `Playlist ${list.id}`} (${list.count.toLocaleString()})`]);
  fill(at("list"), [["0", "All songs"], ...choices], String(wish.list));
}

/** Gives a select its options, and leaves it alone where it has them. */
function fill(select, choices, chosen) {
  const text = JSON.stringify(choices);
  if (select.text !== text) {
    select.replaceChildren(...choices.map(([value, label]) => new Option(label, value)));
    select.text = text;
  }
  const place = choices.findIndex(([value]) => value === chosen);
  if (select.selectedIndex !== place) select.selectedIndex = place;
  select.classList.toggle("narrows", select.selectedIndex > 0);
}

function showHeader() {
  for (const head of document.querySelectorAll("th[data-column]")) {
    const isSorted = wish.sort?.column === head.dataset.column;
    if (isSorted) head.setAttribute("aria-sort", wish.sort.descending ? "descending" : "ascending");
    else head.removeAttribute("aria-sort");
  }
}

function showSummary(shown) {
  const time = shown.reduce((sum, song) => sum + song.time, 0);
  const isNarrowed = wish.search !== "" || wish.list !== 0 || FACETS.some((facet) => wish[facet] !== null);
  const count = `${shown.length.toLocaleString()} ${shown.length === 1 ? "song" : "songs"}`;
  at("summary").textContent = isRead ? [count, span(time)].filter(Boolean).join(", ") : "";
  at("clear").hidden = !isNarrowed;
  at("nothing").hidden = shown.length > 0 || !isRead || members.listing?.revision === 0;
  at("nothing").textContent = songs.rows.size === 0 ? "The share has no songs." : "No song matches.";
}

function say(text, mood) {
  at("state").textContent = text;
  at("state").className = mood;
}

/** Says why the page may still be connecting. A share whose workers are all busy accepts a connection and does not answer. */
function sayBusy() {
  const isBegun = at("state").className === "good";
  if (!isBegun) say("Connecting … No answer for 3 seconds: all workers of the share may be busy.", "");
}

// ---- Playlists

function chooseList() {
  members = wish.list === 0 ? { id: 0, ids: null } : listMembers(wish.list);
  catalogue.change();
  if (members.listing && share.isOpen && songs.revision > 0) refreshMembers(members).then(show, () => {});
}

function listMembers(id) {
  return { id, ids: [], listing: new Listing(`databases/1/containers/${id}/items`, "dmap.containeritemid", "dmap.itemid") };
}

async function refreshMembers(chosen) {
  const idCode = share.codeOf("dmap.itemid");
  await chosen.listing.refresh(share, (tag) => tag.member(idCode));
  chosen.ids = [...chosen.listing.rows].sort(([one], [other]) => one - other).map(([, id]) => id);
}

async function refreshLists() {
  const reply = await share.ask("databases/1/containers");
  const codes = ["dmap.itemid", "dmap.itemname", "dmap.itemcount", "daap.baseplaylist"].map((name) => share.codeOf(name));
  const all = reply.member("mlcl", []).map((tag) => codes.map((code) => tag.member(code)));
  lists = all.filter(([, , , isBase]) => !isBase).map(([id, name, count]) => ({ id, name, count }));
  if (!lists.some((list) => list.id === wish.list)) wish.list = 0;
}

// ---- The share

/** Brings all that is held to the share's present revision, and shows it. */
async function refresh() {
  const news = await songs.refresh(share, songMaker((name) => share.codeOf(name)));
  await refreshLists();
  if (members?.listing && members.id === wish.list) await refreshMembers(members);
  catalogue.change();
  isRead = true;
  if (!news.isWhole) tell(news);
  show();
}

function tell({ added, changed, dropped }) {
  const parts = [[added, "added"], [changed, "changed"], [dropped, "removed"]].filter(([some]) => some.length > 0);
  if (parts.length === 0) return;
  const named = (some) => (some.length === 1 ? `“${some[0].title || "Untitled"}”` : `${some.length.toLocaleString()} songs`);
  at("news").textContent = parts.map(([some, verb]) => `${named(some)} ${verb}`).join(", ");
  fresh = new Set([...added, ...changed].map((song) => song.id));
  clearTimeout(freshTimer);
  freshTimer = setTimeout(() => {
    at("news").textContent = "";
    fresh = new Set();
    show();
  }, NEWS_STAYS);
}

/** Follows the share through one session. It ends by an error alone. A new session begins with whole listings. */
async function followOnce() {
  const name = await share.login();
  document.title = at("name").textContent = name || "Music";
  songs.forget();
  members?.listing?.forget();
  for (;;) {
    await refresh();
    say("Up to date", "good");
    await share.changed(songs.revision);
  }
}

async function follow() {
  for (let pause = 0; ; pause = Math.min(2 * pause + 1000, LONGEST_PAUSE)) {
    if (isAway) await new Promise((resolve) => (wake = resolve));
    const began = Date.now();
    const error = await followOnce().catch((reason) => reason);
    share.close();
    if (Date.now() - began > LONGEST_PAUSE) pause = 0;
    const isPlain = isAway || (error instanceof Refused && error.status === 403);
    say(isPlain ? "Connecting …" : reasonOf(error), isPlain ? "" : "bad");
    if (!isAway && (!isPlain || pause > 0)) await somePause(Math.max(pause, 1000));
  }
}

function reasonOf(error) {
  if (error instanceof Refused && error.status === 503) return "The share was stopped. Waiting for it …";
  if (error instanceof Refused && error.status < 502) return `The share refused (${error.status}). Trying again …`;
  if (error instanceof Refused || error instanceof TypeError) return "The share cannot be reached. Trying again …";
  return `${error.message}. Trying again …`;
}

/** Returns after some milliseconds, or as soon as there is reason to try at once. */
function somePause(milliseconds) {
  return new Promise((resolve) => {
    const done = () => {
      clearTimeout(timer);
      removeEventListener("online", done);
      document.removeEventListener("visibilitychange", done);
      resolve();
    };
    const timer = setTimeout(done, milliseconds);
    addEventListener("online", done);
    document.addEventListener("visibilitychange", done);
  });
}

// A page that was left, or that nobody sees, has no session: so it takes no worker of the share.

let isAway = false;
let wake = () => {};
let hiddenTimer = 0;

function leave() {
  isAway = true;
  share.logout();
}

function comeBack() {
  isAway = false;
  wake();
}

function noticeReader() {
  clearTimeout(hiddenTimer);
  if (document.hidden) hiddenTimer = setTimeout(leave, HIDDEN_STAYS);
  else comeBack();
}

addEventListener("pagehide", leave);
addEventListener("pageshow", noticeReader);
document.addEventListener("visibilitychange", noticeReader);

// ---- The reader

at("search").addEventListener("input", (event) => change({ search: event.target.value }));
at("list").addEventListener("change", (event) => change({ list: Number(event.target.value) }));
for (const facet of FACETS) {
  at(facet).addEventListener("change", (event) => change({ [facet]: event.target.value === "" ? null : event.target.value.slice(1) }));
}
for (const head of document.querySelectorAll("th[data-column]")) {
  head.firstElementChild.addEventListener("click", () => change({ sort: nextSort(head.dataset.column) }));
}
at("wish").addEventListener("reset", (event) => {
  event.preventDefault();
  change(EVERYTHING);
  if (!matchMedia("(pointer: coarse)").matches) at("search").focus({ preventScroll: true });
});
at("wish").addEventListener("submit", (event) => {
  event.preventDefault();
  at("search").blur();
});
addEventListener("keydown", (event) => {
  if (event.key !== "/" || event.ctrlKey || event.metaKey || event.altKey || event.target.matches("input, select, dialog *")) return;
  event.preventDefault();
  at("search").focus();
  at("search").select();
});
addEventListener("hashchange", () => {
  wish = readWish();
  show();
});

const smallWindow = matchMedia("(max-width: 44rem), (max-height: 30rem)");
function fitSelects() {
  for (const select of document.querySelectorAll(".facets select")) select.size = smallWindow.matches ? 1 : 7;
}
smallWindow.addEventListener("change", fitSelects);
fitSelects();
noticeReader();
follow();
