// Links that have a policy and a trace in them. They are behind the `#`, which a browser sends to nobody.

import { part } from "./elements.js";

const MOST = 60000;

// The texts of a link, or null where it has none.
export function textsIn(address) {
  const place = address.indexOf("#");
  const words = new URLSearchParams(place < 0 ? "" : address.slice(place + 1));
  const kinds = ["policy", "trace"].filter((kind) => words.has(kind));
  return kinds.length ? Object.fromEntries(kinds.map((kind) => [kind, words.get(kind)])) : null;
}

export function fragmentOf(texts) {
  return new URLSearchParams(texts).toString();
}

export class Links {
  // `values` gives the texts, and `opened` is told those of a link.
  constructor(values, opened) {
    Object.assign(this, { values, opened });
    part("link").addEventListener("click", () => this.open());
    part("link-close").addEventListener("click", () => part("links").close());
    part("link-open").addEventListener("click", () => this.follow(part("link-in").value));
    part("link-in").addEventListener("keydown", (event) => {
      if (event.key === "Enter") this.follow(part("link-in").value);
    });
    part("link-out").addEventListener("focus", () => part("link-out").select());
  }

  open() {
    const fragment = fragmentOf(this.values());
    const isShort = fragment.length <= MOST;
    if (isShort) window.history.replaceState(null, "", `#${fragment}`);
    part("link-out").value = isShort ? window.location.href : "";
    part("link-in").value = "";
    part("link-said").textContent = isShort ? "" : `The texts are too long for a link: it has at most ${MOST} signs.`;
    part("links").showModal();
    part("link-out").focus();
  }

  follow(address) {
    const texts = textsIn(address);
    if (!texts) {
      part("link-said").textContent = "This link has no policy and no trace.";
      return;
    }
    part("links").close();
    this.opened(texts);
  }
}
