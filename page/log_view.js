"use strict";
// A log, followed by the plan: its frames as a table, signals and addresses over time, and what it refutes of the plan.

const PAGE_ROWS = 100;
let log = null, pageAt = 0, filterTimer = null;

function showLog() {
  log = null;
  for (const id of ["rows", "ends", "audited"]) fill(id);
  byId("logname").textContent = opened.log ? `${opened.log} by ${opened.plan ?? "no plan"}` : "no log is open";
  byId("found").hidden = true;
  if (opened.log && opened.plan && opened.kinds[opened.plan] === "plan") followLog();
  else if (opened.log) say("Open the plan of the log's bus too.", true);
}

/** Runs an order over the log, and shows how far it is. */
async function overLog(order) {
  if (runners.log.isBusy()) runners.log.stop();
  byId("stop").disabled = false;
  const tell = ({ done, size }) => ((byId("progress").max = size), (byId("progress").value = done));
  tell({ done: 0, size: 1 });
  try {
    return await runners.log.ask({ ...order, files: { ...texts(), [opened.log]: opened.files[opened.log] } }, tell);
  } catch (fault) {
    say(fault instanceof Stopped ? "The log was left before its end." : fault.message, true);
    return null;
  } finally {
    byId("stop").disabled = true;
  }
}

async function followLog() {
  const begun = performance.now(), all = byId("all").checked ? ["--all"] : [];
  const answer = await overLog({ order: "follow", words: ["follow", ...all, opened.plan, opened.log] });
  if (!answer) return;
  const seconds = ((performance.now() - begun) / 1000).toFixed(1);
  log = answer;
  const fault = answer.complaint ? `${opened.log} can't be read to its end any more: ${answer.complaint.trim()}` : answer.status ? answer.ends.trim() : "";
  say(fault || logVerdict(answer, seconds), Boolean(fault) || !countsOf(answer)[0]);
  fill("ends", make("pre", {}, answer.ends));
  byId("found").hidden = Boolean(answer.status);
  if (!answer.status) await showFound();
}

/** How many lines of a log were frames, skipped and bad. */
function countsOf({ ends }) {
  return (/^frames (\d+) skipped (\d+) bad (\d+)/m.exec(ends) ?? []).slice(1).map(Number);
}

function logVerdict(answer, seconds) {
  const [frames = 0, skipped = 0, bad = 0] = countsOf(answer);
  if (!frames) return `${opened.log} has no frame of 29 bits in ${bad + skipped} lines: a log of candump -L is wanted`;
  return `${frames} frames, ${bad} bad lines, in ${seconds} s`;
}

async function showFound() {
  const options = (names) => [make("option", { value: "" }, "all"), ...[...names].sort().map((name) => make("option", { value: name }, name))];
  fill("unit", ...options(log.units));
  fill("group", ...options(log.groups));
  const shown = valuesOf((await runners.plan.run(["show", opened.plan], texts())).text);
  const signals = shown.group.flatMap((group) => (group.signals ?? []).map((signal) => `${group.label}.${signal.label}`));
  fill("signals", ...signals.map((name) => make("option", { value: name }, name)));
  await showRows(0);
  await showAddresses();
  fill("legend");
  drawCurves(byId("curves"), []);
}

/** What the filter asks for. */
function filterNow() {
  const number = (id) => (byId(id).value === "" ? null : Number(byId(id).value));
  return { unit: byId("unit").value, group: byId("group").value, text: byId("containing").value, from: number("from"), to: number("to") };
}

/** Shows a page of the rows that the filter takes. */
async function showRows(at) {
  const { total, rows } = await runners.log.ask({ order: "rows", filter: filterNow(), from: at, count: PAGE_ROWS });
  pageAt = at;
  const cells = rows.map((text) => {
    const [first, ...more] = text.trimEnd().split("\n"), [, line, time, said] = /^(\d+) (\S+) (.*)$/.exec(first);
    return [line, time.replace(/[()]/g, ""), said, more.map((it) => it.trim()).join("; ")];
  });
  fill("rows", table(`Rows ${total ? at + 1 : 0} to ${at + rows.length} of ${total}`, ["Line", "Time", "What", "Signals"], cells));
  byId("earlier").disabled = at === 0;
  byId("later").disabled = at + rows.length >= total;
}

function filterSoon() {
  clearTimeout(filterTimer);
  filterTimer = setTimeout(() => log && showRows(0).catch(complain), CHECK_MS);
}

/** Draws the signals that are picked. */
async function showCurves() {
  const picks = [...byId("signals").selectedOptions].map(({ value }) => ({ group: value.split(".")[0], signal: value.split(".")[1] }));
  const { from, to, unit } = filterNow(), curves = await runners.log.ask({ order: "curves", picks, filter: { from, to, unit } });
  const told = drawCurves(byId("curves"), curves);
  byId("curves").setAttribute("aria-label", told.map(({ text }) => text).join("; "));
  fill("legend", ...told.map(({ text, colour }) => {
    const item = make("li", {}, text);
    item.style.color = colour;
    return item;
  }));
}

async function showAddresses() {
  const spans = heldSpans(await runners.log.ask({ order: "claims" }), log.last);
  drawAddresses(byId("addresses"), spans, log.first, log.last);
  const rows = spans.map(({ unit, address, from, to }) => [unit, address, from.toFixed(3), to.toFixed(3)]);
  fill("held", table("Who held which address", ["Unit", "Address", "From, s", "To, s"], rows));
}

async function auditLog() {
  const answer = await overLog({ order: "run", words: ["audit", ...(byId("part").checked ? ["--part"] : []), opened.plan, opened.log] });
  if (!answer) return;
  const lines = answer.text.trimEnd().split("\n"), last = lines.at(-1);
  say(answer.complaint.trim() || last, answer.status > 0);
  fill("audited", table("Audit", ["Answer"], lines.map((line) => [line])));
}
