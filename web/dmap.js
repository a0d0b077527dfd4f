// DMAP, the encoding of DAAP. A tag is a code of four bytes, the length of its payload (32 bits, big endian), and the
// payload: a number, a text, or a list of further tags. Which of these it is depends on the code, and a share lists its
// codes in the reply to /content-codes. Only the four codes of that reply have to be known beforehand.

const KINDS = [
  "opaque", "u8", "i8", "u16", "i16", "u32", "i32", "u64", "i64", "text", "date", "version", "list",
];

const SIZES = { u8: 1, i8: 1, u16: 2, i16: 2, u32: 4, i32: 4, u64: 8, i64: 8, date: 4, version: 4 };

const CODES_OF_CODES = { mccr: "list", mdcl: "list", mcnm: "u32", mcna: "text", mcty: "u16" };

const DEEPEST = 32;

const texts = new TextDecoder();

/** One tag: its code, and its value, which is an array of tags where it is a list. */
export class Tag {
  constructor(code, value) {
    this.code = code;
    this.value = value;
  }

  /** Returns the value of the first member with this code, or `fallback` if there is none. */
  member(code, fallback = undefined) {
    const found = Array.isArray(this.value) && this.value.find((tag) => tag.code === code);
    return found ? found.value : fallback;
  }
}

/** The codes of a share: what kind each has, and by which DAAP name it goes. */
export class Codes {
  #kinds = new Map(Object.entries(CODES_OF_CODES));
  #names = new Map();
  #codes = new Map();

  /** Returns the codes that a reply to /content-codes lists. Throws if it is not such a reply. */
  static learn(buffer) {
    const codes = new Codes();
    const reply = codes.read(buffer);
    if (reply.code !== "mccr") throw new Error("the share lists no content codes");
    for (const entry of reply.value) if (entry.code === "mdcl") codes.#add(entry);
    return codes;
  }

  #add(entry) {
    const [number, name, kind] = ["mcnm", "mcna", "mcty"].map((code) => entry.member(code));
    if (number === undefined || name === undefined) return;
    const code = fourBytes(number);
    this.#kinds.set(code, KINDS[kind] ?? "opaque");
    this.#names.set(code, name);
    this.#codes.set(name, code);
  }

  /** Returns the DAAP name of a code, or the code itself if the share lists none. */
  nameOf(code) {
    return this.#names.get(code) ?? code;
  }

  /** Returns the code of a DAAP name, or `undefined` if the share lists none. */
  codeOf(name) {
    return this.#codes.get(name);
  }

  /** Returns the one tag that an ArrayBuffer holds. Throws if it is not exactly one whole tag. */
  read(buffer) {
    const tags = this.#tags(new DataView(buffer), 0, buffer.byteLength, 0);
    if (tags.length !== 1) throw new Error(`${tags.length} tags in the place of one`);
    return tags[0];
  }

  #tags(view, from, end, depth) {
    if (depth > DEEPEST) throw new Error(`lists are nested too deep at byte ${from}`);
    const found = [];
    for (let at = from; at < end; ) {
      const start = at + 8;
      if (start > end) throw new Error(`a tag is cut off at byte ${at}`);
      const next = start + view.getUint32(at + 4);
      if (next > end) throw new Error(`the tag at byte ${at} is longer than what is around it`);
      found.push(this.#tag(view, at, start, next, depth));
      at = next;
    }
    return found;
  }

  #tag(view, at, start, next, depth) {
    const code = fourBytes(view.getUint32(at));
    const kind = this.#kinds.get(code);
    if (kind === "list") return new Tag(code, this.#tags(view, start, next, depth + 1));
    return new Tag(code, valueOf(view, kind, start, next - start));
  }
}

/** Returns the four letters whose bytes a 32-bit number has. */
function fourBytes(number) {
  return String.fromCharCode(number >>> 24, (number >>> 16) & 255, (number >>> 8) & 255, number & 255);
}

/** Returns the value of a payload, or its bytes where they are no value of the kind. */
function valueOf(view, kind, at, length) {
  const bytes = new Uint8Array(view.buffer, view.byteOffset + at, length);
  if (kind === "text") return texts.decode(bytes);
  if (SIZES[kind] !== length) return bytes;
  switch (kind) {
    case "u8": return view.getUint8(at);
    case "i8": return view.getInt8(at);
    case "u16": return view.getUint16(at);
    case "i16": return view.getInt16(at);
    case "i32": return view.getInt32(at);
    case "u64": return view.getBigUint64(at);
    case "i64": return view.getBigInt64(at);
    case "version": return `${view.getUint16(at)}.${view.getUint8(at + 2)}.${view.getUint8(at + 3)}`;
    default: return view.getUint32(at); // u32, and a date in seconds
  }
}
