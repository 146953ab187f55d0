// Parts a line into pieces by the patterns of its language, and finds the characters that a fault is at.

const ENCODER = new TextEncoder();
const MOST_COLOURED = 200000;

// A language: its patterns as one, and the kind of each.
export class Language {
  constructor(rules) {
    this.kinds = rules.map(([kind]) => kind);
    this.pattern = new RegExp(rules.map(([, pattern]) => `(${pattern})`).join("|"), "g");
  }

  // The pieces of a line: each with its text, and its kind or "".
  piecesOf(line) {
    const pieces = [];
    let end = 0;
    for (const found of line.matchAll(this.pattern)) {
      if (found.index > end) pieces.push({ kind: "", text: line.slice(end, found.index) });
      pieces.push({ kind: this.kinds[found.slice(1).findIndex((group) => group !== undefined)], text: found[0] });
      end = found.index + found[0].length;
    }
    if (end < line.length) pieces.push({ kind: "", text: line.slice(end) });
    return pieces;
  }
}

// Whether a text is short enough to be coloured while it is typed.
export function isColoured(text) {
  return text.length <= MOST_COLOURED;
}

// The place in a line of the character with that byte. Columns count bytes, from 1.
export function placeOf(line, column) {
  let bytes = 0;
  let place = 0;
  for (const character of line) {
    bytes += ENCODER.encode(character).length;
    if (bytes >= column) return place;
    place += character.length;
  }
  return place;
}

// How long the word is that begins there, or the one sign.
export function lengthAt(line, place) {
  return (/^\w+/.exec(line.slice(place)) || [line.slice(place, place + 1)])[0].length;
}

// The pieces with the characters from `start` on in a piece of their own, of the kind `fault`.
export function withFault(pieces, start, length) {
  const marked = [];
  let at = 0;
  for (const { kind, text } of pieces) {
    const [from, to] = [start - at, start + length - at].map((place) => Math.max(0, Math.min(place, text.length)));
    marked.push({ kind, text: text.slice(0, from) }, { kind: `${kind} fault`, text: text.slice(from, to) });
    marked.push({ kind, text: text.slice(to) });
    at += text.length;
  }
  return [...marked.filter(({ text }) => text !== ""), ...(start >= at ? [{ kind: "fault end", text: " " }] : [])];
}
