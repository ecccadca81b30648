"use strict";
// A line of vehicles: its choices as switches, the variant that they lead to, and what isn't there in it.

const taken = new Map();

/** Shows the choices of a plan, or none. */
async function showChoices(places) {
  const lists = [];
  for (let number = 1; places?.lists.has(`choice ${number} of`); number++) lists.push(places.lists.get(`choice ${number} of`));
  const known = new Set(lists.flat());
  for (const [number, label] of taken) if (!known.has(label) || number >= lists.length) taken.delete(number);
  byId("choices").hidden = !lists.length;
  fill("switches", ...lists.map(switchOf));
  if (lists.length) await showVariant();
}

function switchOf(labels, number) {
  const choose = (label) => () => {
    if (label) taken.set(number, label);
    else taken.delete(number);
    showVariant().catch(complain);
  };
  const radio = (label) => {
    const input = make("input", { type: "radio", name: `choice${number}`, checked: (taken.get(number) ?? "") === label, onchange: choose(label) });
    return make("label", {}, input, label || "any");
  };
  return make("fieldset", {}, make("legend", {}, `Choice ${number + 1}`), ...["", ...labels].map(radio));
}

/** Shows the first variant with these alternatives: what is there, and what of the line isn't. */
async function showVariant() {
  const name = opened.plan, words = [...taken].sort().map(([, label]) => label);
  const [whole, variant] = await Promise.all([["show", name], ["variant", name, ...words]].map((order) => runners.plan.run(order, texts())));
  const command = `j39plan ${["variant", name, ...words].join(" ")}`;
  if (variant.status) return fill("variant", make("p", { class: "fault" }, variant.text.trim()), make("code", {}, command));
  const all = valuesOf(whole.text), here = valuesOf(variant.text), rows = [];
  for (const [kind, named] of Object.entries(NAMED)) {
    const left = new Set(here[kind].map(named)), absent = all[kind].map(named).filter((text) => !left.has(text));
    if (all[kind].length) rows.push([`${kind}s`, `${here[kind].length} of ${all[kind].length}`, [...left].join(", "), absent.join(", ")]);
  }
  fill("variant", table("The variant", ["Of", "There", "Has", "Lacks"], rows), make("code", {}, command));
}

/** By what things of a plan are told apart. */
const NAMED = {
  unit: (one) => one.label, group: (one) => one.label, flow: (one) => `${one.group} ${one.from} to ${one.to}`,
  need: (one) => [one.unit, one.group, one.signal, one.from].filter(Boolean).join(" "), request: (one) => `${one.group} ${one.from} to ${one.to}`,
};
