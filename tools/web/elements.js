// Makes the elements of a page. Words are set as texts, so nothing that a file or a person wrote becomes a part of the
// page.

const SVG = "http://www.w3.org/2000/svg";

export function part(name) {
  return document.getElementById(name);
}

export function add(parent, name, kind, words) {
  const made = parent.appendChild(document.createElement(name));
  if (kind) made.className = kind;
  if (words !== undefined) made.textContent = words;
  return made;
}

export function shape(parent, name, settings, words) {
  const made = parent.appendChild(document.createElementNS(SVG, name));
  for (const [key, value] of Object.entries(settings)) made.setAttribute(key, value);
  if (words !== undefined) made.textContent = words;
  return made;
}

export function threads(count) {
  return count === 1 ? "1 thread" : `${count} threads`;
}
