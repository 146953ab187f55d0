// The page of `tools/classroom`: one history, which the page itself has in it.

import { part } from "./elements.js";
import { Steps, drawLegend, layoutOf } from "./steps.js";

const NAMES = ["place", "sentence", "cause", "cores", "names", "lanes", "entries"];
const BUTTONS = { first: "Home", back: "ArrowLeft", next: "ArrowRight", last: "End" };
const ADDRESS_DELAY = 250;
const facts = JSON.parse(part("facts").textContent);
let addressTimer = 0;

// The address follows once the steps pause: browsers allow few changes of it in a short time.
function writeAddress(at) {
  document.body.dataset.at = at;
  clearTimeout(addressTimer);
  addressTimer = setTimeout(() => window.history.replaceState(null, "", `#at=${at}`), ADDRESS_DELAY);
}

function asked() {
  const found = /^#at=(\d+)$/.exec(window.location.hash);
  return found ? Number(found[1]) : 0;
}

document.body.classList.add(layoutOf(facts.cores));
part("verdict").textContent = facts.verdict;
part("verdict").className = facts.word;
part("report").textContent = facts.report.length ? facts.report.join("\n") : "A report is of a whole history.";
drawLegend(part("legend"));

const filled = Object.fromEntries(NAMES.map((name) => [name, part(name)]));
const steps = new Steps(filled, facts, window.innerHeight - 684, writeAddress);
document.addEventListener("keydown", (event) => steps.press(event));
for (const [name, key] of Object.entries(BUTTONS)) {
  part(name).addEventListener("click", () => steps.show(steps.keys[key]()));
}
window.addEventListener("hashchange", () => steps.show(asked()));
steps.show(asked());
