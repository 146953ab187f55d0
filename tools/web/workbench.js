// The workbench: a policy, its verdict, the point of what fails, a trace, and what happens. Here its parts are put
// together.

import { part } from "./elements.js";
import { readTexts } from "./ask.js";
import { Beside } from "./beside.js";
import { Editor } from "./editor.js";
import { Happens } from "./happens.js";
import { Links, textsIn } from "./link.js";
import { More } from "./more.js";
import { Point } from "./point.js";
import { Tabs } from "./tabs.js";
import { Trace } from "./trace.js";
import { Verdict } from "./verdict.js";

const MENUS = { examples: "Examples", gallery: "Gallery", levels: "Levels" };
const FIRST = "timid";
const OWN = "own text";
const TRACE_REST = 300;
const texts = await readTexts();
const values = () => ({ policy: editor.text, trace: trace.text });

// ---- the parts

const editor = new Editor(part("policy-editor"), "Policy", texts.colours.policy, () => touchPolicy());
const trace = new Trace(texts.colours.trace, () => editor.text, () => touchTrace());
const point = new Point((name) => seek(name));
const happens = new Happens(values, (fault) => trace.mark(fault));
const beside = new Beside(texts.policies, values);
const more = new More(texts.commands, values, () => happens.last);
const verdict = new Verdict(editor, texts.obligations, judged, chosen);
const tabs = new Tabs(() => refresh());

// ---- what one part tells the others

function judged({ word, fails, fault }) {
  happens.judge(word);
  trace.judge(fails);
  more.clear();
  if (!fails.length) point.say(fault ? "The policy has a fault, so it isn't judged." : nothingFails(word));
  refresh();
}

function nothingFails(word) {
  if (word === "accepted") return "Every obligation holds, so there is no point to be drawn.";
  return word ? "No obligation is known to fail, so there is no point to be drawn." : "The policy isn't judged.";
}

// An obligation that fails is drawn, and where it was pressed, its point is shown.
function chosen(name, line, isPressed) {
  if (!line) return;
  if (line.startsWith(`${name} fails`)) point.show(name, line);
  else point.say(line);
  if (isPressed) tabs.show("point");
}

// What is shown follows the texts.
function refresh() {
  if (tabs.name === "happens") happens.play();
  if (tabs.name === "trace") happens.look();
  if (tabs.name === "beside") beside.update();
}

let traceTimer = 0;

function touchTrace() {
  clearTimeout(traceTimer);
  traceTimer = setTimeout(refresh, TRACE_REST);
  showName("traces", texts.traces, trace.text);
}

function touchPolicy() {
  verdict.touch();
  const name = showName("policies", texts.policies, editor.text);
  const other = name && neighbourOf(name);
  part("neighbour").hidden = !other;
  part("neighbour").textContent = other && other.endsWith("-wrong") ? "Its wrong neighbour" : "The right one";
}

// The menu names the text that stands there, and returns the name, or nothing where the text was written here.
function showName(menu, list, text) {
  const known = list.find((one) => one.text === text);
  part(menu).value = known ? known.name : OWN;
  return known && known.name;
}

async function seek(name) {
  tabs.show("trace");
  await trace.seek(name);
}

// ---- the menus

function fillMenus() {
  for (const menu of ["policies", "traces"]) Object.assign(part(menu).appendChild(new Option(OWN)), { disabled: true });
  for (const [menu, words] of Object.entries(MENUS)) {
    const group = document.createElement("optgroup");
    group.label = words;
    texts.policies.filter((policy) => policy.menu === menu).forEach((policy) => group.append(new Option(policy.name)));
    part("policies").append(group);
  }
  texts.traces.forEach(({ name }) => part("traces").add(new Option(name)));
  part("policies").addEventListener("change", () => choosePolicy(part("policies").value));
  part("traces").addEventListener("change", () => trace.set(traceNamed(part("traces").value)));
  part("neighbour").addEventListener("click", () => choosePolicy(neighbourOf(part("policies").value)));
}

function policyNamed(name) {
  return texts.policies.find((policy) => policy.name === name);
}

function traceNamed(name) {
  return texts.traces.find((one) => one.name === name).text;
}

// The wrong neighbour of a policy, or the right one of a wrong one, or none.
function neighbourOf(name) {
  const right = texts.policies.find((policy) => policy.wrong === name);
  return right ? right.name : policyNamed(name).wrong;
}

// A trace that goes with the policy comes with it, unless the trace was written by hand.
function choosePolicy(name) {
  const policy = policyNamed(name);
  const isKnown = texts.traces.some((one) => one.text === trace.text);
  if (policy.trace && isKnown) trace.set(traceNamed(policy.trace));
  editor.set(policy.text);
  verdict.judge();
}

// ---- the keys

function nextPart() {
  const stops = [editor.area, document.querySelector("[role=tab][aria-selected=true]"), part(tabs.name)];
  const at = stops.findIndex((stop) => stop === document.activeElement);
  stops[(at + 1) % stops.length].focus();
}

document.addEventListener("keydown", (event) => {
  if (event.key === "F8") {
    event.preventDefault();
    nextPart();
  } else if (event.key === "Enter" && event.ctrlKey) {
    event.preventDefault();
    tabs.show("happens");
    part("happens").focus();
  }
});
part("keep").addEventListener("click", () => {
  tabs.show("beside");
  beside.keep();
});

// ---- the beginning

function open(opened) {
  if (opened.trace !== undefined) trace.set(opened.trace);
  if (opened.policy !== undefined) editor.set(opened.policy);
  verdict.judge();
}

fillMenus();
part("program").textContent = texts.version;
new Links(values, open);
tabs.show("point");
const first = policyNamed(FIRST);
open({ policy: first.text, trace: traceNamed(first.trace), ...texts.opened, ...textsIn(window.location.href) });
window.addEventListener("hashchange", () => open(textsIn(window.location.href) || {}));
editor.area.focus();
document.body.dataset.ready = "true";
