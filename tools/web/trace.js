// The trace: an editor, a form beside it, and the smallest trace that shows a failing obligation.

import { add, part } from "./elements.js";
import { Asker, Trouble, ask, saidWords } from "./ask.js";
import { nameOf } from "./beside.js";
import { Editor } from "./editor.js";
import { TraceForm } from "./trace_form.js";

const SHOWN = /^B\d$/;

export class Trace {
  // `policy` gives the policy's text, and `changed` is told of each change of the trace.
  constructor(rules, policy, changed) {
    Object.assign(this, { policy, asker: new Asker(), madeFor: null });
    this.panel = part("trace");
    const line = add(this.panel, "p", "controls");
    this.button = add(line, "button", "main", "Make the smallest trace that shows it");
    this.button.id = "witness";
    this.button.addEventListener("click", () => this.seek(this.fails[0]));
    this.said = add(this.panel, "p", "said");
    this.said.setAttribute("role", "status");
    this.made = add(this.panel, "p", "made");
    this.made.setAttribute("role", "status");
    const pair = add(this.panel, "div", "trace-pair");
    this.editor = new Editor(add(pair, "div", "trace-editor"), "Trace", rules, () => {
      this.form.read(this.editor.text);
      this.say("");
      this.made.textContent = "";
      changed();
    });
    this.form = new TraceForm(pair, (text) => this.editor.set(text));
    this.judge([]);
  }

  get text() {
    return this.editor.text;
  }

  set(text) {
    this.editor.set(text);
    this.form.read(text);
  }

  // The obligations on balance that fail: of these there may be a trace. What is said of one made before is of the
  // policy that it was made for.
  judge(fails) {
    if (this.madeFor !== null && this.madeFor !== this.policy()) this.say("");
    this.fails = fails.filter((name) => SHOWN.test(name));
    this.button.disabled = this.fails.length === 0;
    const [first] = this.fails;
    this.button.title = first ? `a trace on which ${first} is seen to fail` : "no obligation on balance fails";
  }

  // A fault of the trace at its place, or none.
  mark(fault) {
    const mine = fault && fault.kind === "trace" ? fault : null;
    this.editor.mark(mine);
    if (mine) this.say(`Line ${mine.line}: ${mine.words}`, "wrong");
    else if (this.said.classList.contains("wrong")) this.say("");
  }

  say(words, kind) {
    this.madeFor = null;
    this.said.className = `said ${kind || ""}`;
    this.said.textContent = words;
  }

  // Looks for the smallest trace, and returns whether there is one.
  async seek(name) {
    const policy = this.policy();
    this.say(`Looking for a trace that shows ${name} …`);
    this.made.textContent = "";
    try {
      const answer = await ask("witness", { policy, name }, this.asker.begin());
      if (!answer) return false;
      const isMade = answer.status === 0 && answer.output !== "";
      if (isMade) this.put(answer.output, `${name} of ${nameOf(policy)}`);
      const found = saidWords(answer.said).replace(/^the policy: /, "");
      this.say(`${name} of ${nameOf(policy)}: ${found}.`);
      this.madeFor = policy;
      return isMade;
    } catch (error) {
      if (!(error instanceof Trouble)) throw error;
      this.say(error.message, "wrong");
      return false;
    }
  }

  // Puts a trace in that was made, and says so, also where it is the one that stands there.
  put(text, shown) {
    const isSame = text === this.text;
    this.set(text);
    const what = isSame ? "It is the one that stood here." : "It stands in the place of another.";
    this.made.textContent = `Made at ${new Date().toLocaleTimeString("en-GB")} for ${shown}. ${what}`;
  }
}
