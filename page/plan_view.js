"use strict";
// The plan or the vehicle in its editor, checked as one types: findings at their lines, and what the program answers of it.

const CHECK_MS = 150;
let checkTimer = null, marked = new Set();

function showPlan() {
  byId("text").value = opened.plan ? opened.files[opened.plan] : "";
  byId("name").textContent = opened.plan ?? "no plan is open";
  marked = new Set();
  byId("choices").hidden = true;
  fill("findings");
  fill("answers");
  checkSoon(0);
}

/** Checks once nothing was typed for a moment; what runs of an older text is stopped. */
function checkSoon(wait = CHECK_MS) {
  clearTimeout(checkTimer);
  drawGutter();
  byId("plan").setAttribute("aria-busy", "true");
  checkTimer = setTimeout(checkNow, wait);
}

async function checkNow() {
  if (!opened.plan) return;
  if (runners.plan.isBusy()) runners.plan.stop();
  const name = opened.plan, isVehicle = opened.kinds[name] === "vehicle";
  try {
    const answer = await runners.plan.run([isVehicle ? "vehicle" : "check", name], texts());
    showFindings(answer);
    if (isVehicle) fill("answers", ...vehicleAnswers(answer.text));
    else fill("answers", ...(answer.status < 2 ? await planAnswers(name) : []));
    await showChoices(isVehicle || answer.status > 1 ? null : placesOf(opened.files[name]));
    byId("plan").setAttribute("aria-busy", "false");
  } catch (fault) {
    complain(fault);
  }
}

/** The files that are texts, as the worker gets them. */
function texts() {
  return Object.fromEntries(Object.entries(opened.files).filter(([, content]) => typeof content === "string"));
}

/** Shows the answer's findings; each leads to its line. */
function showFindings({ status, text, complaint }) {
  const places = placesOf(byId("text").value), all = partsOf(places, text);
  const parts = all.filter(({ said }) => /^(?:[FG]\d+ |refused )/.test(said));
  marked = new Set(parts.map((part) => part.line).filter(Boolean));
  drawGutter();
  const items = parts.map((part) => make("li", {}, atLine(part), make("code", {}, part.said), part.hint ? ` ${part.hint}` : "", part.below.length ? make("pre", {}, part.below.join("\n")) : null));
  const last = all.at(-1)?.said ?? "";
  const verdict = complaint.trim() || (status === 0 ? last : parts[0]?.said.startsWith("refused") ? "this can't be read as a plan" : last);
  fill("findings", make("p", { class: status === 0 ? "well" : "fault" }, verdict), make("ol", {}, ...items));
}

function atLine({ line }) {
  if (!line) return null;
  return make("button", { type: "button", onclick: () => goToLine(line) }, `line ${line}`);
}

/** Puts the cursor on a line, and the line into view. */
function goToLine(line) {
  const text = byId("text"), lines = text.value.split("\n");
  const start = lines.slice(0, line - 1).reduce((sum, it) => sum + it.length + 1, 0);
  text.focus();
  text.setSelectionRange(start, start + lines[line - 1].length);
  text.scrollTop = (text.scrollHeight / lines.length) * Math.max(line - 4, 0);
}

/** The numbers of the lines beside the text, with a mark where a finding belongs. */
function drawGutter() {
  const count = byId("text").value.split("\n").length;
  byId("gutter").textContent = Array.from({ length: count }, (_, index) => `${marked.has(index + 1) ? "● " : ""}${index + 1}`).join("\n");
  byId("gutter").scrollTop = byId("text").scrollTop;
}

/** What a plan comes to: load and times, units with their addresses, flows, needs. */
async function planAnswers(name) {
  const [shown, addresses, load] = await Promise.all(["show", "addresses", "load"].map((order) => runners.plan.run([order, name], texts())));
  const values = valuesOf(shown.text), stays = new Map();
  for (const [, unit, stand] of addresses.text.matchAll(/^unit (\S+) (.*)$/gm)) stays.set(unit, stand);
  return [
    loadBar(load.text), barsOf("Response times against their limits", load.text, ["flow"]), barsOf("Ages of needed data", load.text, ["need"]),
    unitTable(values.unit, stays), flowTable(values), needTable(values.need), requestTable(values.request),
  ].filter(Boolean);
}

function unitTable(units, stays) {
  const rows = units.map((unit) => [unit.label, unit.address, unit["name arbitrary"] === "true" ? "may choose" : "single", stays.get(unit.label),
    `manufacturer ${unit["name manufacturer"]}, function ${unit["name function"]}`, unit.with]);
  return table("Units", ["Unit", "Address", "Arbitrary", "Whatever happens", "NAME", "With"], rows);
}

function flowTable({ flow, group }) {
  const groups = new Map(group.map((one) => [one.label, one]));
  const rows = flow.map((one) => {
    const of = groups.get(one.group) ?? {}, period = one.period ? `${one.period} ms` : "";
    return [one.group, of.pgn, of.length === of.most ? of.length : `${of.length} to ${of.most}`, one.from, one.to, period, (of.signals ?? []).map((it) => it.label).join(", ")];
  });
  return rows.length ? table("Flows", ["Group", "PGN", "Bytes", "From", "To", "Period", "Signals"], rows) : null;
}

function needTable(needs) {
  const rows = needs.map((one) => [one.unit, one.group, one.signal, one.from, one.within ? `${one.within} ms` : ""]);
  return rows.length ? table("Needs", ["Unit", "Group", "Signal", "From", "Within"], rows) : null;
}

function requestTable(requests) {
  const rows = requests.map((one) => [one.group, one.from, one.to, one.period ? `${one.period} ms` : ""]);
  return rows.length ? table("Requests", ["Group", "From", "To", "Period"], rows) : null;
}

/** What is answered of a vehicle: its buses, forwards and needs. */
function vehicleAnswers(text) {
  const buses = [];
  for (const line of text.split("\n")) {
    if (line.startsWith("bus ")) buses.push([line.slice(4), "", ""]);
    else if (buses.length && line.startsWith("ok ") && !buses.at(-1)[1]) buses.at(-1)[1] = line;
    else if (line.startsWith("load ") && buses.length) buses.at(-1)[2] = loadBar(line);
  }
  return [table("Buses", ["Bus", "Plan", "Load"], buses), barsOf("Gateways", text, ["forward"]), barsOf("Needs over gateways", text, ["need"])].filter(Boolean);
}
