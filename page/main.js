"use strict";
// Begins the page: what a browser must have, the module, the views and what one does with them.

const runners = {};
const TABS = ["plan", "run", "log", "about"];

/** What of this page a browser lacks. */
function lacking() {
  const wanted = { WebAssembly: "WebAssembly", Worker: "workers", DecompressionStream: "DecompressionStream", BigInt64Array: "numbers of 64 bits" };
  return Object.keys(wanted).filter((name) => !(name in window)).map((name) => wanted[name]);
}

/** The bytes that are packed in an element of the page. */
async function unpacked(id) {
  const packed = Uint8Array.from(atob(byId(id).textContent), (character) => character.charCodeAt(0));
  return new Response(new Blob([packed]).stream().pipeThrough(new DecompressionStream("gzip"))).arrayBuffer();
}

function showTab(name) {
  for (const tab of TABS) {
    const isShown = tab === name;
    byId(`tab-${tab}`).setAttribute("aria-selected", String(isShown));
    byId(`tab-${tab}`).tabIndex = isShown ? 0 : -1;
    byId(tab).hidden = !isShown;
  }
}

/** The arrows go from tab to tab. */
function onTabKey(event) {
  const step = { ArrowRight: 1, ArrowLeft: -1 }[event.key], at = TABS.indexOf(event.target.id.slice(4));
  if (!step || at < 0) return;
  const next = TABS[(at + step + TABS.length) % TABS.length];
  showTab(next);
  byId(`tab-${next}`).focus();
}

function listen(id, kind, listener) {
  byId(id).addEventListener(kind, (event) => Promise.resolve(listener(event)).catch(complain));
}

function listenToFiles(examples) {
  listen("picked", "change", async (event) => {
    await takeFiles([...event.target.files]);
    event.target.value = "";
  });
  addEventListener("dragover", (event) => event.preventDefault());
  addEventListener("drop", (event) => {
    event.preventDefault();
    takeFiles([...event.dataTransfer.files]);
  });
  const plans = Object.keys(examples).filter((name) => name.endsWith(".toml"));
  byId("example").append(...plans.map((name) => make("option", { value: name }, name)));
  listen("example", "change", (event) => event.target.value && takeExample(event.target.value, examples));
}

function listenToViews() {
  for (const tab of TABS) listen(`tab-${tab}`, "click", () => showTab(tab));
  listen("tabs", "keydown", onTabKey);
  listen("text", "input", () => {
    if (!opened.plan) keep("plan.toml", "plan", "");
    opened.files[opened.plan] = byId("text").value;
    checkSoon();
  });
  listen("text", "scroll", () => (byId("gutter").scrollTop = byId("text").scrollTop));
  listen("save", "click", () => opened.plan && save(opened.plan, opened.files[opened.plan]));
  listen("schedule", "input", () => {
    if (!opened.schedule) keep("new.schedule", "schedule", "");
    opened.files[opened.schedule] = byId("schedule").value;
    readSchedule();
  });
  listen("step", "input", (event) => goToStep(Number(event.target.value)));
  for (const [id, to] of Object.entries({ first: () => 0, back: () => schedule.at - 1, forward: () => schedule.at + 1, end: () => schedule.steps.length })) listen(id, "click", () => goToStep(to()));
  for (const id of ["unit", "group", "from", "to", "containing"]) listen(id, "input", filterSoon);
  listen("earlier", "click", () => showRows(Math.max(pageAt - PAGE_ROWS, 0)));
  listen("later", "click", () => showRows(pageAt + PAGE_ROWS));
  listen("signals", "change", showCurves);
  listen("all", "change", showLog);
  listen("again", "click", showLog);
  listen("audit", "click", () => opened.log && opened.plan && auditLog());
  listen("stop", "click", () => runners.log.stop());
}

async function begin() {
  const missing = lacking();
  if (missing.length) return say(`This browser lacks ${missing.join(", ")}: see About for what the page needs.`, true);
  const [code, examples] = await Promise.all([unpacked("module"), unpacked("examples")]);
  for (const name of ["plan", "run", "log"]) runners[name] = new Runner(byId("worker").textContent, code);
  const { text } = await runners.plan.run(["--version"], {});
  byId("version").textContent = text.trim();
  const named = JSON.parse(new TextDecoder().decode(examples));
  listenToFiles(named);
  listenToViews();
  // a text is printed whole, where the screen shows a part of it
  addEventListener("beforeprint", () => (byId("printed").textContent = byId("text").value));
  takeExample("first_plan.toml", named);
  say("ready");
}

byId("about").hidden = false;
begin().catch((fault) => say(`The page can't begin: ${fault.message}`, true));
