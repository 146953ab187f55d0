// Draws time: a row for each core, a column for each entry, and the reads of the entry at hand as arcs back to what
// they saw. Position p, the state behind p entries, is the left edge of column p.

import { shape } from "./elements.js";
import { strength } from "./history.js";

const HEAD = 54;
const FOOT = 26;
const SIDE = 40;
const LABEL_ROOM = 330;

// Few cores get high rows, where there is room for them.
function rowHeight(cores, room) {
  const least = cores <= 4 ? 34 : cores <= 8 ? 32 : 20;
  return Math.max(least, Math.min(72, room / cores));
}

export class Lanes {
  // `bands` has a colour for each core, if they have any.
  constructor(parent, names, entries, cores, room, bands) {
    Object.assign(this, { entries, cores, bands, openings: [] });
    this.row = rowHeight(cores, room);
    const least = cores <= 8 ? 46 : 34;
    this.column = Math.max(least, Math.min(72, (parent.clientWidth - LABEL_ROOM) / Math.max(entries.length, 1)));
    this.half = Math.min(this.row * 0.38, this.column * 0.26);
    this.end = this.x(entries.length);
    this.bottom = HEAD + cores * this.row;
    this.svg = this.canvas(parent, this.end + LABEL_ROOM);
    [this.under, this.grid, this.marks, this.over] = ["under", "grid", "marks", "over"]
      .map((name) => shape(this.svg, "g", { class: name }));
    this.drawGrid(this.canvas(names, 92));
    entries.forEach((entry, position) => this.drawMark(entry, position));
    parent.addEventListener("scroll", () => this.hideCut(parent));
  }

  canvas(parent, width) {
    const made = shape(parent, "svg", { width, height: this.bottom + FOOT, class: "lanes" });
    made.style.fontSize = `${Math.max(12, this.half * 1.2)}px`;
    return made;
  }

  x(position) {
    return SIDE + position * this.column;
  }

  middle(position) {
    return this.x(position) + this.column / 2;
  }

  y(core) {
    return HEAD + (core + 0.5) * this.row;
  }

  drawGrid(names) {
    for (let core = 0; core < this.cores; core++) {
      shape(this.grid, "line", { x1: SIDE, x2: this.end, y1: this.y(core), y2: this.y(core), class: "lane" });
      shape(names, "text", { x: 84, y: this.y(core) + 5, class: "name" }, `core ${core}`);
      if (this.bands) shape(names, "rect", this.bandBox(core));
    }
    this.entries.forEach((entry, position) => {
      const x = this.middle(position);
      shape(this.grid, "text", { x, y: this.bottom + 18, class: "number" }, position);
      const column = shape(this.under, "rect", this.box(position));
      column.setAttribute("class", "column");
      column.dataset.at = position;
    });
  }

  bandBox(core) {
    return { x: 0, y: this.y(core) - this.row * 0.42, width: 8, height: this.row * 0.84, fill: this.bands[core] };
  }

  box(position) {
    return { x: this.x(position), y: HEAD - 22, width: this.column, height: this.bottom - HEAD + FOOT + 18 };
  }

  drawMark(entry, position) {
    const mark = shape(this.marks, "g", { class: `mark ${entry.kind}` });
    mark.dataset.at = position;
    shape(mark, "title", {}, `${position}: ${entry.text}`);
    MARKS[entry.kind](this, mark, this.middle(position), entry);
  }

  // What the entry at hand adds: its column, its reads, the entry that explains it, and the looks whose attempts come
  // later.
  show(at, pending) {
    const entry = this.entries[at];
    this.over.replaceChildren();
    for (const column of this.under.children) column.setAttribute("class", this.columnClass(column, at, entry));
    this.fade(at);
    pending.forEach((look) => this.drawEye(at, look, pending));
    (entry.reads || []).forEach((read) => this.drawRead(at, entry.core, read));
    if (Number.isInteger(entry.cause)) this.drawCause(at, entry.cause);
  }

  columnClass(column, at, entry) {
    const position = Number(column.dataset.at);
    if (position === at) return "column now";
    return position === entry.cause ? "column why" : "column";
  }

  fade(at) {
    const x = this.x(at + 1);
    const width = Math.max(this.end - x, 0);
    shape(this.over, "rect", { x, y: HEAD, width, height: this.bottom - HEAD, class: "later" });
  }

  drawRead(at, reader, read) {
    const stale = read.by !== null;
    const group = shape(this.over, "g", { class: stale ? "read stale" : "read fresh" });
    const [x, y] = [this.x(read.position), this.y(read.core)];
    shape(group, "path", { d: this.arc(this.middle(at), this.y(reader), x, y) });
    const sight = this.half * (stale ? 1 : 0.8);
    shape(group, stale ? "rect" : "circle", stale
      ? { x: x - sight, y: y - sight, width: 2 * sight, height: 2 * sight, class: "sight" }
      : { cx: x, cy: y, r: sight, class: "sight" });
    shape(group, "text", { x, y: y + this.half * 0.45, class: "saw" }, read.saw);
    if (stale) this.drawLabel(group, this.x(at + 1) + 8, y, `stale: saw ${read.saw}, now ${read.now}`);
  }

  // A thief's eye at the moment and on the victim that it saw, with the number there. A line goes from it to the thief,
  // behind the entry at hand. Thieves that saw the same share an eye. It lies above its row, where no read of the entry
  // at hand hides it.
  drawEye(at, look, pending) {
    const group = shape(this.over, "g", { class: look.changes ? "eye faded" : "eye", opacity: strength(look) });
    Object.assign(group.dataset, { core: look.core, victim: look.victim, saw: look.saw });
    const [x, y] = [this.x(look.position), this.y(look.victim) - this.row * 0.4];
    const [now, thief] = [this.x(at + 1), this.y(look.core)];
    shape(group, "path", { d: this.arc(now, thief, x, y), class: "gaze" });
    this.drawWho(group, now + 6, thief - this.half * 0.5, `core ${look.core} saw ${look.saw} at core ${look.victim}`);
    const same = pending.find((one) => one.victim === look.victim && one.position === look.position);
    if (same === look && !this.isCovered(at, look, x)) this.drawPupil(group, x, y, look.saw);
  }

  // The words of a look, on white: marks of later entries lie below them.
  drawWho(group, x, y, words) {
    const high = Math.max(14, this.half * 1.3);
    const back = shape(group, "rect", { x: x - 3, y: y - high * 0.8, height: high, class: "back" });
    const text = shape(group, "text", { x, y, class: "who" }, words);
    back.setAttribute("width", text.getComputedTextLength() + 6);
  }

  // Whether a read of the entry at hand stands where the eye would, as in low rows. The words of the look are there.
  isCovered(at, look, x) {
    const reads = this.row < 40 ? this.entries[at].reads || [] : [];
    return reads.some((read) => read.core === look.victim && Math.abs(this.x(read.position) - x) < this.half * 2.4);
  }

  drawPupil(group, x, y, saw) {
    const [wide, high] = [this.half * 1.3, this.half * 0.85];
    const lid = (way) => `Q ${x} ${y + way * 2 * high}`;
    shape(group, "path", { d: `M ${x - wide} ${y} ${lid(-1)} ${x + wide} ${y} ${lid(1)} ${x - wide} ${y} Z` });
    shape(group, "circle", { cx: x, cy: y, r: high * 0.85 });
    shape(group, "text", { x, y: y + this.half * 0.4, class: "saw" }, saw);
  }

  // From the reader's mark back to the moment that it saw. In its own row the arc goes over the marks.
  arc(fromX, fromY, toX, toY) {
    const lift = fromY === toY ? this.row * 0.6 : 0;
    const bend = (fromX - toX) / 2;
    return `M ${fromX} ${fromY} C ${fromX - bend / 2} ${fromY - lift} ${toX + bend} ${toY - lift} ${toX} ${toY}`;
  }

  drawLabel(group, x, y, words) {
    const high = Math.min(this.row - 1, Math.max(22, this.half * 1.9));
    const back = shape(group, "rect", { x, y: y - high / 2, height: high, rx: 5, class: "label" });
    const text = shape(group, "text", { x: x + 8, y: y + high * 0.22, class: "label" }, words);
    back.setAttribute("width", text.getComputedTextLength() + 16);
  }

  drawCause(at, cause) {
    const y = HEAD - 30;
    const group = shape(this.over, "g", { class: "cause" });
    const [from, to] = [this.middle(cause), this.middle(at)];
    shape(group, "path", { d: `M ${from} ${HEAD - 22} V ${y} H ${to} V ${HEAD - 26}` });
    const tip = `M ${to - 6} ${HEAD - 31} L ${to} ${HEAD - 22} L ${to + 6} ${HEAD - 31} Z`;
    shape(group, "path", { d: tip, class: "tip" });
    shape(group, "text", { x: to + 12, y: y + 8 }, `explained by entry ${cause}`);
  }

  // Scrolls to the entry at hand, and as far back as it read, while its labels stay in sight.
  follow(parent, at) {
    const room = parent.clientWidth;
    const first = Math.min(...(this.entries[at].reads || []).map((read) => this.x(read.position)), this.middle(at));
    const wanted = Math.min(this.middle(at) - room * 0.6, first - SIDE);
    parent.scrollLeft = Math.max(0, wanted, this.middle(at) + LABEL_ROOM * 0.75 - room);
    this.hideCut(parent);
  }

  // The name of a round is shown where all of it is in sight.
  hideCut(parent) {
    const [left, right] = [parent.scrollLeft, parent.scrollLeft + parent.clientWidth];
    for (const { words, x } of this.openings) {
      const half = words.getComputedTextLength() / 2;
      words.setAttribute("visibility", x - half < left || x + half > right ? "hidden" : "visible");
    }
  }
}

// ---- the marks: each draws an entry into a group, at its column's middle

function named(lanes, group, x, y, thread) {
  const kind = String(thread).length > 2 ? "thread long" : "thread";
  shape(group, "text", { x, y: y + lanes.half * 0.45, class: kind }, thread);
}

// Of several threads the first one, and how many more there are.
function numberOf(threads) {
  return threads.length > 1 ? `${threads[0]}+${threads.length - 1}` : threads[0];
}

function drawRound(lanes, group, x, entry) {
  shape(group, "line", { x1: x, x2: x, y1: HEAD - 20, y2: lanes.bottom });
  lanes.openings.push({ x, words: shape(group, "text", { x, y: 16 }, `round ${entry.round}`) });
}

function drawComing(lanes, group, x, entry) {
  const [y, half] = [lanes.y(entry.target), lanes.half * 1.25];
  if (entry.core !== entry.target) shape(group, "line", { x1: x, x2: x, y1: lanes.y(entry.core), y2: y, class: "way" });
  const [top, tip] = [y - half, y + half * 0.3];
  shape(group, "path", { d: `M ${x - half} ${top} H ${x + half} V ${tip} L ${x} ${y + half} L ${x - half} ${tip} Z` });
  named(lanes, group, x, y - half * 0.15, entry.thread);
}

function drawWork(lanes, group, x, entry) {
  const [y, half] = [lanes.y(entry.core), lanes.half];
  shape(group, "rect", { x: x - half, y: y - half, width: 2 * half, height: 2 * half, class: entry.outcome });
  named(lanes, group, x, y, entry.thread);
}

function drawNothing(lanes, group, x, entry) {
  const [y, half] = [lanes.y(entry.core), lanes.half];
  shape(group, "rect", { x: x - half, y: y - half, width: 2 * half, height: 2 * half });
}

function drawSteal(lanes, group, x, entry) {
  const [from, to, half] = [lanes.y(entry.victim), lanes.y(entry.core), lanes.half];
  const back = Math.sign(from - to) * half * 2;
  shape(group, "line", { x1: x, x2: x, y1: from, y2: to + back });
  shape(group, "path", { d: `M ${x - half} ${to + back} H ${x + half} L ${x} ${to + back / 4} Z` });
  shape(group, "circle", { cx: x, cy: from, r: half * 1.1 });
  named(lanes, group, x, from, numberOf(entry.threads));
}

function drawFail(lanes, group, x, entry) {
  const [from, to, half] = [lanes.y(entry.victim), lanes.y(entry.core), lanes.half * 0.8];
  shape(group, "line", { x1: x, x2: x, y1: from, y2: to, class: "way" });
  const [left, right, up, down] = [x - half, x + half, to - half, to + half];
  shape(group, "path", { d: `M ${left} ${up} L ${right} ${down} M ${left} ${down} L ${right} ${up}` });
}

function drawPass(lanes, group, x, entry) {
  shape(group, "circle", { cx: x, cy: lanes.y(entry.core), r: lanes.half * 0.7 });
}

function drawIllegal(lanes, group, x) {
  const [top, half] = [HEAD, lanes.half];
  shape(group, "rect", { x: x - half, y: top, width: 2 * half, height: lanes.bottom - top });
  shape(group, "text", { x, y: 16 }, "illegal");
}

export const MARKS = {
  round: drawRound, enter: drawComing, wake: drawComing, work: drawWork, nothing: drawNothing, steal: drawSteal,
  fail: drawFail, pass: drawPass, illegal: drawIllegal,
};
