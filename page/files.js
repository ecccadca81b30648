"use strict";
// The files that the page has: their texts, and of logs the files of the disk, which are read when they are asked for.

const HEAD_BYTES = 1 << 16;
const STEPS = /^(?:up|down|ask|emit|rest) \S+\s*$|^(?:give|take|lose) \S+ \S+\s*$|^(?:begin|send) \d+ [0-9A-Fa-f]+\s*$|^late \S+/;
const opened = { files: {}, kinds: {}, plan: null, schedule: null, log: null };

/** What a file is, by its name and how it begins. */
function kindOf(name, head) {
  const first = head.split("\n").find((line) => line.trim() && !line.startsWith("#")) ?? "";
  const isToml = name.endsWith(".toml") || /^\s*(?:version\s*=|\[\[?\s*[a-z]+)/.test(first);
  if (isToml) return /^\s*\[\[\s*bus\s*\]\]/m.test(head) ? "vehicle" : "plan";
  return name.endsWith(".schedule") || STEPS.test(first) ? "schedule" : "log";
}

/** Keeps a file, and makes it the one of its kind that is shown. */
function keep(name, kind, content) {
  opened.files[name] = content;
  opened.kinds[name] = kind;
  opened[kind === "vehicle" ? "plan" : kind] = name;
}

/** Takes files that were dropped or picked. */
async function takeFiles(list) {
  const kinds = [], refused = [];
  for (const file of list) {
    try {
      kinds.push(await takeFile(file));
    } catch (fault) {
      refused.push(`${file.name}: ${fault instanceof TypeError ? "it isn't text in UTF-8" : "it can't be read"}`);
    }
  }
  const vehicle = Object.keys(opened.kinds).find((name) => opened.kinds[name] === "vehicle");
  if (kinds.includes("vehicle")) opened.plan = vehicle;
  say(refused.length ? refused.join("; ") : `opened ${list.length === 1 ? list[0].name : `${list.length} files`}`, refused.length > 0);
  if (kinds.length) showFiles(kinds);
}

async function takeFile(file) {
  const head = await file.slice(0, HEAD_BYTES).text(), kind = kindOf(file.name, head);
  keep(file.name, kind, kind === "log" ? file : new TextDecoder("utf-8", { fatal: true }).decode(await file.arrayBuffer()));
  return kind;
}

/** Takes an example in the place of all files: with its plans, where it is a vehicle, its schedules and its logs. */
function takeExample(name, examples) {
  Object.assign(opened, { files: {}, kinds: {}, plan: null, schedule: null, log: null });
  const folder = name.slice(0, name.lastIndexOf("/") + 1), stem = name.replace(/toml$/, ""), { texts } = placesOf(examples[name]);
  const plans = [...texts].filter(([path]) => /^bus \d+ plan$/.test(path)).map(([, plan]) => folder + plan);
  const isPart = (other) => other === name || plans.includes(other) || (other.startsWith(stem) && !other.endsWith(".toml"));
  for (const other of Object.keys(examples).filter(isPart)) {
    const kind = kindOf(other, examples[other]);
    keep(other.slice(folder.length), kind, kind === "log" ? new File([examples[other]], other) : examples[other]);
  }
  opened.plan = name.slice(folder.length);
  say(`opened the example ${name}`);
  showFiles(["plan"]);
}

/** Shows the files, and the view of what came last. */
function showFiles(kinds) {
  const names = Object.keys(opened.files).sort();
  fill("opened", ...names.map((name) => {
    const kind = opened.kinds[name], isShown = [opened.plan, opened.schedule, opened.log].includes(name);
    const choose = () => (keep(name, kind, opened.files[name]), showFiles([kind]));
    return make("li", {}, make("button", { type: "button", "aria-pressed": String(isShown), onclick: choose }, name), ` ${kind}`);
  }));
  showPlan();
  showSchedule();
  showLog();
  showTab(kinds.includes("log") ? "log" : kinds.includes("schedule") ? "run" : "plan");
}
