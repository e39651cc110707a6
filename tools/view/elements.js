// Elements of the page and of its pictures. All that comes from a file is set as text.

const SVG = "http://www.w3.org/2000/svg";

const isThere = (it) => it !== null && it !== undefined && it !== false;

export function element(name, kind, ...inside) {
  const made = document.createElement(name);
  if (kind) made.className = kind;
  made.append(...inside.filter(isThere));
  return made;
}

export function shape(name, values, ...inside) {
  const made = document.createElementNS(SVG, name);
  for (const [key, value] of Object.entries(values)) if (isThere(value)) made.setAttribute(key, value);
  made.append(...inside.filter(isThere));
  return made;
}

export const line = (kind, ...inside) => element("p", kind, ...inside);
export const mono = (text) => element("span", "mono", text);
export const words = (x, y, said, kind) => shape("text", { x, y, class: kind }, said);
export const title = (said) => shape("title", {}, said);
export const box = (x, y, width, height, kind, rx) => shape("rect", { x, y, width, height, class: kind, rx });
export const counted = (count, one, more = one + "s") => `${count} ${Number(count) === 1 ? one : more}`;

/** A picture of this size, in points. */
export function picture(kind, width, height, ...inside) {
  return shape("svg", { class: `hw ${kind}`, width, height, viewBox: `0 0 ${width} ${height}`, role: "img" }, ...inside);
}

export function button(text, hint, press) {
  const made = element("button", "", text);
  made.type = "button";
  made.title = hint;
  made.addEventListener("click", press);
  return made;
}

/** A box to tick with its words. */
export function tick(text, isOn, change) {
  const made = element("input");
  Object.assign(made, { type: "checkbox", checked: isOn });
  made.addEventListener("change", () => change(made.checked));
  return element("label", "tick", made, " " + text);
}

/** Milliseconds in a unit that a person reads. */
export function span(milliseconds) {
  const count = Number(milliseconds);
  if (count < 10_000) return `${Math.round(count)} ms`;
  if (count < 600_000) return `${(count / 1000).toFixed(1)} s`;
  return count < 36_000_000 ? `${Math.round(count / 60_000)} min` : `${Math.round(count / 3_600_000)} h`;
}
