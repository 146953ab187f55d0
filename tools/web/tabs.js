// The views beside the policy: one is shown, and the arrow keys go from one to the next.

import { part } from "./elements.js";

export class Tabs {
  // `shown` is told the name of the view that is shown.
  constructor(shown) {
    this.tabs = [...document.querySelectorAll("[role=tab]")];
    this.shown = shown;
    for (const tab of this.tabs) {
      tab.addEventListener("click", (event) => this.click(event, nameOf(tab)));
      tab.addEventListener("keydown", (event) => this.press(event, tab));
    }
  }

  show(name) {
    this.name = name;
    for (const tab of this.tabs) {
      const isShown = nameOf(tab) === name;
      tab.setAttribute("aria-selected", isShown);
      tab.tabIndex = isShown ? 0 : -1;
      part(nameOf(tab)).hidden = !isShown;
    }
    this.shown(name);
  }

  // The mouse goes on into the view, so that the arrow keys step there.
  click(event, name) {
    this.show(name);
    if (event.detail > 0) part(name).focus();
  }

  press(event, tab) {
    const way = { ArrowRight: 1, ArrowLeft: -1 }[event.key];
    if (!way) return;
    event.preventDefault();
    const next = this.tabs[(this.tabs.indexOf(tab) + way + this.tabs.length) % this.tabs.length];
    next.focus();
    this.show(nameOf(next));
  }
}

function nameOf(tab) {
  return tab.getAttribute("aria-controls");
}
