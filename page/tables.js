"use strict";
// A plan's values as `show` has them, and the times that `load` and `vehicle` bound, as bars against their limits.

const NESTED = new Set(["name", "when"]);

/** The units, groups, flows, needs and requests of `show`, each as a map of keys to values; a group's signals are lists of such maps. */
function valuesOf(shown) {
  const found = { unit: [], group: [], flow: [], need: [], request: [] };
  for (const line of shown.split("\n")) {
    const [kind, number, ...words] = line.split(" ");
    if (!found[kind]) continue;
    const one = (found[kind][number - 1] ??= {});
    if (words[0] === "signal") put(((one.signals ??= [])[words[1] - 1] ??= {}), words.slice(2));
    else if (words[0] !== "text") put(one, words);
  }
  return found;
}

function put(one, words) {
  const size = NESTED.has(words[0]) ? 2 : 1, key = words.slice(0, size).join(" "), value = words.slice(size).join(" ");
  one[key] = key in one ? `${one[key]} ${value}` : value;
}

/** What a line of `load` or `vehicle` bounds: its subject, the bound and the limit in microseconds. */
function boundOf(line) {
  const found = /^(.*?) (?:frames \d+ )?(?:whole )?(?:queued )?(within|late|age|old)(?: (\d+))? of (\d+) us/.exec(line);
  if (!found) return null;
  const limit = Number(found[4]), bound = found[3] ? Number(found[3]) : Infinity;
  return { subject: found[1], isLate: found[2] === "late" || found[2] === "old", bound, limit, share: bound / limit };
}

const milliseconds = (count) => (count === Infinity ? "no bound" : `${count / 1000} ms`);

/** A bar of a bound against its limit. */
function bar({ subject, bound, limit, share, isLate }) {
  const full = Math.min(share, 1), label = `${subject}: ${milliseconds(bound)} of ${milliseconds(limit)}`;
  const meter = make("meter", { min: 0, max: 1, low: 0.7, high: 0.99, optimum: 0, value: full, "aria-label": label });
  return [make("span", {}, subject), meter, make("span", { class: isLate ? "fault" : "" }, `${milliseconds(bound)} of ${milliseconds(limit)}`)];
}

/** The bus load as a bar, where the text has one. */
function loadBar(text) {
  const found = /^load (\d+) of (\d+)$/m.exec(text);
  if (!found) return null;
  const [load, rate] = found.slice(1).map(Number), label = `Bus load ${((100 * load) / rate).toFixed(1)} %: ${load} of ${rate} bits a second`;
  return make("p", {}, make("meter", { min: 0, max: rate, low: 0.5 * rate, high: 0.8 * rate, optimum: 0, value: load, "aria-label": label }), ` ${label}`);
}

/** The bars of an answer, those with the least left first, and below them the lines without a limit. */
function barsOf(caption, text, kinds) {
  const lines = text.split("\n").filter((line) => kinds.includes(line.split(" ")[0]));
  const bounds = lines.map(boundOf).filter(Boolean).sort((one, other) => other.share - one.share);
  const others = lines.filter((line) => !boundOf(line));
  if (!lines.length) return null;
  const rows = [...bounds.map(bar), ...others.map((line) => [line, "", ""])];
  return table(caption, ["Of", "Share of the limit", "Bound and limit"], rows);
}
