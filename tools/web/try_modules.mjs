// Tries the modules of the workbench that draw nothing, in `node`: traces as forms, colours, links, scenes and reports.
//
//     node tools/web/try_modules.mjs
//
// What is wrong is said on standard error, with status 1.

import assert from "node:assert/strict";
import { readFileSync, readdirSync } from "node:fs";
import { Language, placeOf, withFault } from "./colours.js";
import { fragmentOf, textsIn } from "./link.js";
import { numbersOf, wayFor } from "./played.js";
import { numbersIn, sceneOf } from "./scene.js";
import { formOf, oneMore, textOf } from "./trace_text.js";

const examples = new URL("../../examples/", import.meta.url);
const read = (name) => readFileSync(new URL(name, examples), "utf8");
const traces = ["", "witnesses/", "fair/", "batch/"].flatMap((folder) =>
  readdirSync(new URL(folder || ".", examples)).filter((name) => name.endsWith(".trace")).map((name) => folder + name));
let tried = 0;

function same(seen, wanted, what) {
  tried++;
  assert.deepEqual(seen, wanted, what);
}

// A trace that goes through the form says the same: the form's text has the same form.
for (const name of traces) {
  const form = formOf(read(name));
  assert.equal(typeof form, "object", name);
  same(formOf(textOf(form)), form, name);
}
const kept = [
  "cores 2", "rounds 3", "# one", "order 1 0 1",
  "thread 4 core 1 round 1 weight 5 run 2 block 3 run 1 yield forever", "",
].join("\n");
const form = formOf(kept);
same(textOf(form), kept, "kept lines");
same(oneMore(form).number, 1, "the number of one more thread");
same(formOf("cores 2\nrounds 3\nthread 1 core 0 round 1 run 2 block\n"), 3, "a line without a form");
same(formOf("cores 2\nrounds 3\nthread 1 core 0 round 1 forever run 1\n"), 3, "a burst behind the last");
same(formOf("rounds 3"), 1, "no cores");

// Colours, and the place of a fault: columns count bytes.
const language = new Language([["statement", "\\bcores\\b"], ["number", "\\b\\d+\\b"]]);
same(language.piecesOf("cores 12 x"), [
  { kind: "statement", text: "cores" }, { kind: "", text: " " }, { kind: "number", text: "12" },
  { kind: "", text: " x" },
], "pieces");
same(withFault([{ kind: "a", text: "abc" }, { kind: "", text: "de" }], 1, 3), [
  { kind: "a", text: "a" }, { kind: "a fault", text: "bc" }, { kind: " fault", text: "d" }, { kind: "", text: "e" },
], "a fault across two pieces");
same(withFault([{ kind: "", text: "ab" }], 2, 0).at(-1), { kind: "fault end", text: " " }, "a fault at the end");
same(placeOf("aä𝄞b", 1), 0, "the first byte");
same(placeOf("aä𝄞b", 4), 2, "behind two bytes");
same(placeOf("aä𝄞b", 8), 4, "behind four bytes");

// Links.
const texts = { policy: "policy p\n# a&b=c+d %\n", trace: "cores 1\n" };
same(textsIn(`http://127.0.0.1:1/word/#${fragmentOf(texts)}`), texts, "a link");
same(textsIn("http://127.0.0.1:1/word/"), null, "a link without texts");

// Points and reports.
same(numbersIn("B1 fails self.nr=0 self.node=-3"), { "self.nr": 0, "self.node": -3 }, "numbers");
for (const path of readdirSync(new URL("gallery/", examples)).filter((name) => name.endsWith(".explain"))) {
  const line = read(`gallery/${path}`).trim();
  const scene = sceneOf(line.split(" ")[0], numbersIn(line));
  same(/undefined|NaN/.test(scene), false, `${path}: ${scene}`);
}
same(numbersOf("round 1 spread 2 idle 1\nstill 1 1 spread 2 bad 1 steals 0\nrest -\nrounds 1\nbad 1\n"), {
  rounds: [{ round: 1, spread: 2, idle: 1 }], totals: { rounds: 1, bad: 1 },
  lines: ["still 1 1 spread 2 bad 1 steals 0", "rest -", "rounds 1", "bad 1"],
}, "a report");
same(wayFor("run", "accepted"), "run", "the way under an accepted policy");
same(wayFor("run", "refused"), "simulate", "the way under a refused policy");
same(wayFor("simulate", "accepted"), "simulate", "a way that is always there");

console.log(`modules: ${tried} trials, 0 wrong`);
