// What the page asks of a share, and the listings that it holds. A listing is asked for as the change since the revision
// that is held; a share that no longer keeps that revision sends all rows, and says so in the reply.

import { Codes } from "./dmap.js";

const ANSWER_WAIT = 3000; // milliseconds

/** A reply that is not 200 or 204. `status` is 403 for a session that ended, 503 for a share that was stopped. */
export class Refused extends Error {
  constructor(status) {
    super(`the share refused with status ${status}`);
    this.status = status;
  }
}

/** A share at the page's own origin, and the session that the page has there. */
export class Share {
  #codes = null;
  #session = 0;
  #ended = new AbortController();
  #late;

  /** Whether there is a session, as far as the page knows. */
  isOpen = false;

  /** `late` is called if a request has no answer for three seconds, unless it waits for a change. */
  constructor(late) {
    this.#late = late;
  }

  /** Learns the content codes, logs in, and returns the share's name. */
  async login() {
    this.#ended = new AbortController();
    this.#codes = Codes.learn(await this.#fetch("content-codes", {}));
    const info = await this.#read("server-info", {});
    // An older session is left to its end: a share that began anew may have given its number to another client.
    this.#session = (await this.#read("login", {})).member("mlid");
    this.isOpen = true;
    return info.member("minm", "");
  }

  /** Ends the session's requests, and leaves the session to the next login. */
  close() {
    this.isOpen = false;
    this.#ended.abort();
  }

  /** Ends the session and its requests. The share is told even while the page is being left. */
  logout() {
    if (this.isOpen) fetch(address("logout", { "session-id": this.#session }), { keepalive: true }).catch(() => {});
    this.#session = 0;
    this.close();
  }

  /** Returns once the share has another revision than `revision`. */
  async changed(revision) {
    await this.ask("update", { "revision-number": revision });
  }

  /** Returns the tag that the share replies with to a request of this session. */
  async ask(path, parameters = {}) {
    return this.#read(path, { "session-id": this.#session, ...parameters });
  }

  /** Returns the code of a DAAP name, as the share lists it. */
  codeOf(name) {
    return this.#codes.codeOf(name);
  }

  /** Returns the DAAP name of a code, as the share lists it. */
  nameOf(code) {
    return this.#codes.nameOf(code);
  }

  async #read(path, parameters) {
    return this.#codes.read(await this.#fetch(path, parameters));
  }

  async #fetch(path, parameters) {
    const timer = path === "update" ? 0 : setTimeout(this.#late, ANSWER_WAIT);
    try {
      const reply = await fetch(address(path, parameters), { signal: this.#ended.signal, cache: "no-store" });
      if (!reply.ok) throw new Refused(reply.status);
      return reply.arrayBuffer();
    } finally {
      clearTimeout(timer);
    }
  }
}

/** The rows of a listing by their keys, at a revision. */
export class Listing {
  /** The revision of the rows, 0 where there are none yet. */
  revision = 0;
  rows = new Map();
  #turn = Promise.resolve();
  #age = 0;

  /** `path` is where the share lists it, `keyName` the DAAP name of a row's key, `meta` the properties to ask for. */
  constructor(path, keyName, meta) {
    this.path = path;
    this.keyName = keyName;
    this.meta = meta;
  }

  /** Has the next refresh ask for all rows. The share may be another one by then, with revisions of its own. */
  forget() {
    this.revision = 0;
    this.#age += 1;
  }

  /**
   * Brings the rows to the share's present revision, one call after the other. `held` makes what is held of a row's
   * tag. Returns whether all rows came, and which rows are new, others in the place of older ones, and gone.
   */
  refresh(share, held) {
    const mine = this.#turn.catch(() => {}).then(() => this.#bring(share, held));
    this.#turn = mine;
    return mine;
  }

  async #bring(share, held) {
    const age = this.#age;
    const base = this.revision > 0 ? { delta: this.revision } : {};
    const reply = await share.ask(this.path, { meta: this.meta, ...base });
    if (age !== this.#age) throw new Error("the session ended meanwhile");
    const change = { isWhole: reply.member("muty", 0) === 0, added: [], changed: [], dropped: [] };
    if (change.isWhole) this.rows.clear();
    for (const { value: key } of reply.member("mudl", [])) {
      if (this.rows.has(key)) change.dropped.push(this.rows.get(key));
      this.rows.delete(key);
    }
    const keyCode = share.codeOf(this.keyName);
    for (const tag of reply.member("mlcl", [])) {
      const [key, row] = [tag.member(keyCode), held(tag)];
      (this.rows.has(key) ? change.changed : change.added).push(row);
      this.rows.set(key, row);
    }
    this.revision = reply.member("musr", 0);
    return change;
  }
}

function address(path, parameters) {
  const query = new URLSearchParams(parameters).toString();
  return query === "" ? path : `${path}?${query}`;
}
