"use strict";
// What the program answers of a plan: where in the file a line belongs, and what a finding says in a few words.

// Of each finding: what it says, and the key where it belongs, of what a word of its line names: `U3` is the unit of the third word.
const FINDINGS = {
  F1: ["two units may be one: the same NAME", "U3 name"], F2: ["two single-address units at one address", "U3 address"],
  F3: ["too few addresses for all who may choose", "unit 1"], F4: ["this number can't be planned", "G2 pgn"],
  F5: ["two groups of one number", "G3 pgn"], F6: ["the width doesn't fit the kind", "S bits"], F7: ["the signal ends behind its group", "S byte"],
  F8: ["two signals share a bit", "S4"], F9: ["the group goes to all, the flow to one", "flow to"], F10: ["a flow to its own sender", "flow to"],
  F11: ["a flow that is planned twice", "flow3"], F12: ["an address that is kept free", "U2 address"],
  F13: ["a private group that no flow sends", "G2 private"], F14: ["records of the group share a bit", "S repeated"],
  F15: ["the text ends behind its group", "T byte"], F16: ["the flow has no period", "flow period"], F17: ["the bus is too full", "timing bitrate"],
  F18: ["the flow isn't shown to be in time", "flow deadline"], F19: ["no flow brings what is needed", "need group"],
  F20: ["what is needed may be too old", "need within"], F21: ["no flow answers the request", "request group"],
  F22: ["who is asked isn't heard by who asks", "request to"], F23: ["the answer goes elsewhere", "request from"],
  F24: ["the selector ends behind its group", "G2 when"], F25: ["a request that is planned twice", "request3"],
  F26: ["another unit at the address of a silent one", "U3 address"], F27: ["a silent unit where others may choose", "U2 address"],
  F28: ["an end of the flow may have another address", "flow from"], F29: ["no vehicle can be built", "never"],
  F30: ["too many vehicles to look at", "choice"], F31: ["requests ask for the flow oftener than its period", "flow period"],
};

/** The path of the table of a kind whose label a word is. */
function labelled(places, start, label) {
  for (let number = 1; places.lines.has(`${start} ${number}`) || places.texts.has(`${start} ${number} label`); number++)
    if (places.texts.get(`${start} ${number} label`) === label) return `${start} ${number}`;
  return start;
}

/** The path in a file of the key where a finding belongs. */
function pathOf(places, words) {
  const [of, ...key] = (FINDINGS[words[0]]?.[1] ?? "").split(" "), place = Number(of.slice(1)) || 0;
  const member = (kind, at) => labelled(places, `${labelled(places, "group", words[2])} ${kind}`, words[at]);
  if (of === "flow" || of === "need" || of === "request") return [of, words[2], ...key].join(" ");
  if (of === "flow3" || of === "request3") return `${of.slice(0, -1)} ${words[3]}`;
  if (of[0] === "U") return [labelled(places, "unit", words[place]), ...key].join(" ");
  if (of[0] === "G") return [labelled(places, "group", words[place]), ...key].join(" ");
  if (of[0] === "S" || of[0] === "T") return [member(of[0] === "S" ? "signal" : "text", place || 3), ...key].join(" ");
  return [of, ...key].join(" ");
}

/** The line of a path, or of the table around it. */
function lineOf(places, path) {
  for (let words = path.split(" "); words.length; words = words.slice(0, -1)) {
    const found = places.lines.get(words.join(" ")) ?? places.lines.get(`${words.join(" ")} 1`);
    if (found) return found;
  }
  return null;
}

/** The line on which an answer's line belongs: of a finding, or of a file that is refused. */
function placeOf(places, said) {
  const words = said.split(" ");
  if (FINDINGS[words[0]]) return lineOf(places, pathOf(places, words));
  if (words[0] !== "refused" || words[1] === "plan") return null;
  if (words[1] === "Text") return places.broken;
  return lineOf(places, words.slice(2).filter((word) => word !== "key" && word !== "top").join(" "));
}

/** The parts of an answer: each with the lines below it that belong to it, the place, and what it says. */
function partsOf(places, answer) {
  const parts = [];
  for (const line of answer.split("\n").filter(Boolean)) {
    if (line.startsWith("  ") && parts.length) parts.at(-1).below.push(line.trim());
    else parts.push({ said: line, below: [], line: placeOf(places, line), hint: FINDINGS[line.split(" ")[0]]?.[0] ?? "" });
  }
  return parts;
}
