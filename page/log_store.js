"use strict";
// What `follow` wrote of a log: the text, and of each line that tells of a frame its place, time, sender and group. It is filled piece by piece.

const LINE_END = 10, SPACE = 32, ZERO = 48, NINE = 57, POINT = 46, AT = 64, QUESTION = 63, OPEN = 40;
const FIRST_BYTES = 1 << 22, FIRST_ROWS = 1 << 16, NONE = 0xffff;

/** Numbers for names, told apart by their bytes. */
class Names {
  constructor() {
    this.list = [];
    this.byHash = new Map();
  }

  /** The number of the name that stands here; of more names than there are numbers none. */
  number(bytes, from, to) {
    let hash = 0;
    for (let at = from; at < to; at++) hash = (hash * 31 + bytes[at]) | 0;
    const known = this.byHash.get(hash) ?? [];
    for (const number of known) if (isName(this.list[number], bytes, from, to)) return number;
    if (this.list.length === NONE) return NONE;
    this.byHash.set(hash, [...known, this.list.length]);
    return this.list.push(String.fromCharCode(...bytes.subarray(from, to))) - 1;
  }
}

function isName(name, bytes, from, to) {
  if (name.length !== to - from) return false;
  for (let at = 0; at < name.length; at++) if (name.charCodeAt(at) !== bytes[from + at]) return false;
  return true;
}

/** A copy with room for twice as much. */
function grown(old, size = 2 * old.length) {
  const more = new old.constructor(size);
  more.set(old);
  return more;
}

class LogStore {
  constructor() {
    this.text = new Uint8Array(FIRST_BYTES);
    this.size = this.scanned = this.rows = 0;
    this.endsAt = null;
    this.units = new Names();
    this.groups = new Names();
    this.at = new Uint32Array(FIRST_ROWS);
    this.time = new Float64Array(FIRST_ROWS);
    this.unit = new Uint16Array(FIRST_ROWS);
    this.group = new Uint16Array(FIRST_ROWS);
  }

  /** Takes a piece of the text, and notes the lines that are whole. */
  take(bytes) {
    while (this.size + bytes.length > this.text.length) this.text = grown(this.text);
    this.text.set(bytes, this.size);
    this.size += bytes.length;
    const last = this.text.lastIndexOf(LINE_END, this.size - 1);
    while (this.scanned <= last) this.scanned = this.line(this.scanned) + 1;
  }

  /** Notes the line that begins here, and returns its end. */
  line(from) {
    const { text } = this, first = text[from];
    let end = from;
    while (text[end] !== LINE_END) end++;
    if (first >= ZERO && first <= NINE) this.row(from, end);
    else if (first !== SPACE) this.endsAt ??= from;
    return end;
  }

  /** Notes a line of a frame: `N (TIME) group G from U@A ..`, `N (TIME) claim U@A`, `N - ..`. */
  row(from, end) {
    if (this.rows === this.at.length) for (const it of ["at", "time", "unit", "group"]) this[it] = grown(this[it]);
    const { text, rows } = this, row = this.rows++;
    const timeAt = after(text, from, end), kindAt = after(text, timeAt, end), subjectAt = after(text, kindAt, end);
    this.at[rows] = from;
    this.time[row] = text[timeAt] === OPEN ? seconds(text, timeAt + 1) : NaN;
    const fromAt = after(text, subjectAt, end), unitAt = after(text, fromAt, end);
    const tells = text[fromAt] === 102; // f: `from`
    const named = tells ? subjectAt : kindAt, sender = tells ? unitAt : subjectAt;
    this.group[row] = this.groups.number(text, named, wordEnd(text, named));
    this.unit[row] = this.units.number(text, sender, unitEnd(text, sender));
  }

  rowText(row) {
    const end = row + 1 < this.rows ? this.at[row + 1] : this.endsAt ?? this.size;
    return decoder.decode(this.text.subarray(this.at[row], end));
  }

  /** What is told of the whole log: the counts with which the text ends, and what one can choose by. */
  summary() {
    const ends = decoder.decode(this.text.subarray(this.endsAt ?? this.size, this.size));
    return { rows: this.rows, ends, units: this.units.list, groups: this.groups.list, ...this.span() };
  }

  /** The first and the last time, null where there is none. */
  span() {
    let first = null, last = null;
    for (let row = 0; row < this.rows; row++) {
      if (Number.isNaN(this.time[row])) continue;
      first = first === null ? this.time[row] : Math.min(first, this.time[row]);
      last = last === null ? this.time[row] : Math.max(last, this.time[row]);
    }
    return { first, last };
  }

  /** The rows that a filter takes: of a unit, of a group, between two times, with a text. */
  chosen({ unit = "", group = "", from = null, to = null, text = "" }) {
    const unitNumber = this.units.list.indexOf(unit), groupNumber = this.groups.list.indexOf(group), found = [];
    for (let row = 0; row < this.rows; row++) {
      if (unit && this.unit[row] !== unitNumber) continue;
      if (group && this.group[row] !== groupNumber) continue;
      if (from !== null && !(this.time[row] >= from)) continue;
      if (to !== null && !(this.time[row] <= to)) continue;
      if (text && !this.rowText(row).includes(text)) continue;
      found.push(row);
    }
    return found;
  }

  /** A page of the rows that a filter takes, and how many it takes. */
  page(filter, from, count) {
    const rows = this.chosen(filter);
    return { total: rows.length, rows: rows.slice(from, from + count).map((row) => this.rowText(row)) };
  }

  /** The values of a signal of a group over time, by the unit that sent it. */
  curve({ group, signal }, filter) {
    const lines = new Map(), start = `\n  ${signal} value `;
    for (const row of this.chosen({ ...filter, group })) {
      const text = this.rowText(row), at = text.indexOf(start);
      if (at < 0 || Number.isNaN(this.time[row])) continue;
      const unit = this.units.list[this.unit[row]];
      if (!lines.has(unit)) lines.set(unit, { times: [], values: [] });
      lines.get(unit).times.push(this.time[row]);
      lines.get(unit).values.push(scaled(text.slice(at + start.length, text.indexOf("\n", at + start.length))));
    }
    return { group, signal, lines: [...lines].map(([unit, line]) => ({ unit, ...line })) };
  }

  /** Who claimed which address when: null where it could have none. */
  claims() {
    const taken = ["claim", "cannot"].map((kind) => this.groups.list.indexOf(kind));
    const found = [];
    for (let row = 0; row < this.rows; row++) {
      if (!taken.includes(this.group[row])) continue;
      const address = /^\d+ \S+ claim [^@\s]+@(\d+)/.exec(this.rowText(row));
      found.push({ time: this.time[row], unit: this.units.list[this.unit[row]], address: address ? Number(address[1]) : null });
    }
    return found;
  }
}

/** A value in its unit of measurement: `5600 1/8 rpm` is 700 rpm. */
function scaled(said) {
  const [number, unit = ""] = said.split(" "), parts = /^1\/([1-9]\d*)$/.exec(unit);
  return Number(number) / (parts ? Number(parts[1]) : 1);
}

/** Where the next word begins. */
function after(text, at, end) {
  while (at < end && text[at] !== SPACE) at++;
  return Math.min(at + 1, end);
}

function wordEnd(text, at) {
  while (text[at] !== SPACE && text[at] !== LINE_END) at++;
  return at;
}

/** Where the label of a unit ends that is written as `ENGINE@0` or `ENGINE?@0`; of an unknown one `?` is the label. */
function unitEnd(text, from) {
  let at = from;
  while (text[at] !== AT && text[at] !== SPACE && text[at] !== LINE_END) at++;
  return text[at - 1] === QUESTION && at - 1 > from ? at - 1 : at;
}

/** Seconds as they are written, `10.250)`. */
function seconds(text, at) {
  let whole = 0, part = 0, scale = 1;
  for (; text[at] >= ZERO && text[at] <= NINE; at++) whole = whole * 10 + text[at] - ZERO;
  if (text[at] === POINT) for (at++; text[at] >= ZERO && text[at] <= NINE; at++, scale *= 10) part = part * 10 + text[at] - ZERO;
  return whole + part / scale;
}
