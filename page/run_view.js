"use strict";
// A schedule step by step, forwards and back: each state is what the program's `run` answers of the steps so far.

const FRAME = /^[0-9A-F]{8}#[0-9A-F]*$/;
let schedule = { lines: [], steps: [], at: 0, seen: new Map() };

function showSchedule() {
  byId("schedule").value = opened.schedule ? opened.files[opened.schedule] : "";
  readSchedule();
}

/** Takes the steps of the schedule anew; the first none. */
function readSchedule() {
  const lines = byId("schedule").value.split("\n");
  const steps = lines.map((text, index) => ({ text: text.trim(), line: index + 1 })).filter(({ text }) => text && !text.startsWith("#"));
  schedule = { lines, steps, at: 0, seen: new Map() };
  byId("step").max = steps.length;
  fill("steps", ...steps.map(({ text }, index) => make("li", {}, make("button", { type: "button", onclick: () => goToStep(index + 1) }, text))));
  goToStep(0);
}

/** Shows the state after so many steps. */
async function goToStep(at) {
  schedule.at = Math.min(Math.max(at, 0), schedule.steps.length);
  byId("step").value = schedule.at;
  if (!opened.plan || opened.kinds[opened.plan] !== "plan") return fill("state", make("p", {}, "Open a plan, and its schedule or write one here."));
  if (runners.run.isBusy()) runners.run.stop();
  await showState(schedule.at).catch(complain);
}

/** What `run` answers of so many steps, and of further ones behind them. */
async function runTo(at, ...more) {
  const end = at ? schedule.steps[at - 1].line : 0, key = [at, ...more].join("\n");
  if (!schedule.seen.has(key)) {
    const text = [...schedule.lines.slice(0, end), ...more].join("\n");
    schedule.seen.set(key, await runners.run.run(["run", opened.plan, "the schedule"], { ...texts(), "the schedule": text }));
  }
  return schedule.seen.get(key);
}

const framesOf = ({ text }) => text.split("\n").filter((line) => FRAME.test(line));

async function showState(at) {
  const now = await runTo(at), before = at ? framesOf(await runTo(at - 1)).length : 0, frames = framesOf(now);
  const units = [...now.text.matchAll(/^unit (\S+) (.*)$/gm)].map(([, unit, stand]) => ({ unit, stand }));
  const refused = /^refused .*$/m.exec(now.text), settled = /^(?:not )?settled$/m.exec(now.text);
  const told = await toldFrames(frames, before), waiting = refused ? [] : await undelivered(at, units);
  const reports = [...now.text.matchAll(/^report (.*)$/gm)].map(([, report]) => report);
  const step = at ? schedule.steps[at - 1].text : "all units are off";
  fill("state", make("h3", {}, `After step ${at} of ${schedule.steps.length}: ${step}`), refused && make("p", { class: "fault" }, refused[0]),
    now.complaint ? make("p", { class: "fault" }, now.complaint) : null,
    table("Units", ["Unit", "Is on", "Address"], units.map(({ unit, stand }) => [unit, stand === "off" ? "off" : "on", stand.replace("address ", "")])),
    make("p", {}, `${settled?.[0] ?? ""}${waiting.length ? `; undelivered: ${waiting.join(", ")}` : ""}`),
    told.length ? table("Frames of this step", ["Frame", "Says"], told) : make("p", {}, "No frame is sent in this step."),
    reports.length ? table("Messages that are reported", ["By, from, flow and bytes"], reports.map((report) => [report])) : null);
  for (const [index, item] of [...byId("steps").children].entries()) {
    item.toggleAttribute("data-done", index < at);
    item.setAttribute("aria-current", index === at - 1 ? "step" : "false");
  }
}

/** The frames from a number on, each with what `follow` says of it. */
async function toldFrames(frames, from) {
  if (frames.length === from) return [];
  const { text } = await runners.run.run(["follow", "--all", opened.plan, "the frames"], { ...texts(), "the frames": frames.join("\n") });
  const said = new Map();
  let line = 0;
  for (const row of text.split("\n")) {
    const found = /^(\d+) - (.*)$/.exec(row);
    if (found) line = Number(found[1]);
    if (found || row.startsWith("  ")) said.set(line, [...(said.get(line) ?? []), found ? found[2] : row.trim()]);
  }
  return frames.slice(from).map((frame, index) => [frame, [...transport(frame), ...(said.get(from + index + 1) ?? [])].join("; ")]);
}

const CONTROLS = { 16: "announces a message (RTS)", 17: "permits packets (CTS)", 19: "acknowledges the message", 32: "announces a message to all (BAM)", 255: "gives up (Abort)" };

/** What a frame of the transport protocol of SAE J1939-21 is. */
function transport(frame) {
  const format = frame.slice(2, 4), first = parseInt(frame.slice(9, 11), 16);
  if (format === "EB") return [`packet ${first}`];
  return format === "EC" ? [CONTROLS[first] ?? `control ${first}`] : [];
}

/** From whom to whom a claim, a request or a frame of a message is under way: where a further step that takes it isn't refused. */
async function undelivered(at, units) {
  const on = units.filter(({ stand }) => stand !== "off").map(({ unit }) => unit), found = [];
  for (const from of on) for (const to of on) for (const [step, what] of [["give", "claims"], ["take", "frames"]]) {
    if (from === to) continue;
    const { text } = await runTo(at, `${step} ${from} ${to}`);
    if (!/^refused /m.test(text)) found.push(`${what} from ${from} to ${to}`);
  }
  return found;
}
