"use strict";
// On which line of a TOML file each key stands: a small reader of places. What it can't read it gives up on, with the line where it was.

const BARE = /[A-Za-z0-9_-]+/y, BLANK = /(?:[ \t\r\n]|#[^\n]*)*/y, GAP = /[ \t]*/y, WORD = /[^,\]}\s#]+/y;
const TEXT = /"""(?:\\[^]|[^\\])*?"{3,5}|'''[^]*?'{3,5}|"((?:\\.|[^"\\\n])*)"|'([^'\n]*)'/y;

/** Reads a file from its first character on. */
class PlaceReader {
  constructor(text) {
    Object.assign(this, { text, at: 0, line: 1, counted: 0, lines: new Map(), texts: new Map(), lists: new Map(), counts: new Map() });
  }

  /** Takes what a pattern matches here, or gives up. */
  take(pattern) {
    pattern.lastIndex = this.at;
    const found = pattern.exec(this.text);
    if (!found) throw new SyntaxError(`line ${this.lineNow()}`);
    this.at = pattern.lastIndex;
    return found;
  }

  /** Takes a text if it stands here. */
  has(text) {
    const is = this.text.startsWith(text, this.at);
    if (is) this.at += text.length;
    return is;
  }

  lineNow() {
    for (; this.counted < this.at; this.counted++) if (this.text[this.counted] === "\n") this.line++;
    return this.line;
  }

  /** Takes a key with points, as its parts. */
  key() {
    const parts = [];
    do {
      this.take(GAP);
      const quoted = this.text[this.at] === '"' || this.text[this.at] === "'";
      const found = this.take(quoted ? TEXT : BARE);
      parts.push(quoted ? found[1] ?? found[2] : found[0]);
      this.take(GAP);
    } while (this.has("."));
    return parts;
  }

  /** The path of a key's table: of an array of tables its last one, or a further one. */
  path(base, parts, further) {
    let path = base;
    parts.forEach((part, index) => {
      path = path ? `${path} ${part}` : part;
      const isNew = further && index === parts.length - 1;
      if (!isNew && !this.counts.has(path)) return;
      if (isNew) this.counts.set(path, (this.counts.get(path) ?? 0) + 1);
      path = `${path} ${this.counts.get(path)}`;
    });
    return path;
  }

  note(path) {
    if (!this.lines.has(path)) this.lines.set(path, this.lineNow());
  }

  pair(base) {
    const path = this.path(base, this.key(), false);
    this.note(path);
    this.take(/=[ \t]*/y);
    this.value(path);
  }

  value(path) {
    if (this.has("[")) return this.array(path);
    if (this.has("{")) return this.members("}", () => this.pair(path));
    if (this.text[this.at] !== '"' && this.text[this.at] !== "'") return void this.texts.set(path, this.take(WORD)[0]);
    const found = this.take(TEXT);
    this.texts.set(path, found[1] ?? found[2] ?? found[0].slice(3, -3));
  }

  /** Takes members up to a bracket, with commas between them. */
  members(end, member) {
    for (;;) {
      this.take(BLANK);
      if (this.has(end)) return;
      member();
      this.take(BLANK);
      if (!this.has(",") && this.text[this.at] !== end) throw new SyntaxError(`line ${this.lineNow()}`);
    }
  }

  array(path) {
    const list = [];
    this.members("]", () => {
      if (this.text[this.at] === "{") {
        const member = this.path("", [path], true);
        this.note(member);
        return this.value(member);
      }
      this.value(`${path} #`);
      list.push(this.texts.get(`${path} #`));
    });
    this.lists.set(path, list);
  }

  read() {
    this.at = this.text.startsWith("\ufeff") ? 1 : 0;
    for (let base = ""; ; ) {
      this.take(BLANK);
      if (this.at >= this.text.length) return;
      if (!this.has("[")) {
        this.pair(base);
        continue;
      }
      const further = this.has("[");
      base = this.path("", this.key(), further);
      this.note(base);
      this.take(further ? /\]\]/y : /\]/y);
    }
  }
}

/** The lines of a file's keys, by paths as `group 1 signal 2 bits`, its texts and lists, and the line from which on it can't be read. */
function placesOf(text) {
  const reader = new PlaceReader(text);
  let broken = null;
  try {
    reader.read();
  } catch (fault) {
    if (!(fault instanceof SyntaxError)) throw fault;
    broken = reader.lineNow();
  }
  return { lines: reader.lines, texts: reader.texts, lists: reader.lists, broken };
}
