// A whole log at a glance: the strip of finality, validators by rounds, and a small map of the stretch that is shown.

import { CELLS } from "./facts.js";
import { box, element, line, picture, shape, span, title, words } from "./elements.js";
import { LABEL } from "./layout.js";

export { drawHeat, drawMap, drawStrip, heatLegend };

const WIDE = 1100, STRIP_HIGH = 96, HALF = 40, MAP_HIGH = 46, POINTS = 1100;
const LETTERS_HIGH = 12, BOTTOM = 8, TOP = 18;

// ---- the strip of finality

/** Heights of final blocks and how long they took, over time. `open` is called with the time that is clicked. */
function drawStrip({ strip, times }, wide, open) {
  const width = Math.max(260, Math.min(WIDE, wide)), [first, last] = times, length = Number(last - first) || 1, inner = width - LABEL - 10;
  const xOf = (time) => LABEL + (Number(time - first) / length) * inner, root = picture("strip", width, STRIP_HIGH);
  const shown = strip.length > POINTS ? strip.filter((_, place) => place % Math.ceil(strip.length / POINTS) === 0 || place === strip.length - 1) : strip;
  root.append(box(LABEL, 2, inner, HALF, "band"), box(LABEL, 48, inner, HALF, "band"), shape("rect", { class: "window", y: 0, height: STRIP_HIGH - 4 }));
  root.append(words(10, 16, "final height", "tag"), words(10, 62, "latency", "tag"));
  if (shown.length) root.append(...heights(shown, xOf), ...latencies(shown, xOf));
  else root.append(words(LABEL + 8, 26, "no block is final", "soft"));
  root.addEventListener("click", (event) => open(first + BigInt(Math.round(Math.max(0, (placeIn(root, event) - LABEL) / inner) * length))));
  return { root, mark: (from, to) => markWindow(root, xOf(from), xOf(to)) };
}

function heights(strip, xOf) {
  const top = Math.max(1, strip[strip.length - 1].height), y = (height) => 2 + HALF - (height / top) * (HALF - 6);
  const steps = strip.map(({ since, height }) => `H${xOf(since).toFixed(1)}V${y(height).toFixed(1)}`).join("");
  const said = `up to height ${strip[strip.length - 1].height}`;
  return [shape("path", { class: "line", d: `M${LABEL} ${2 + HALF}${steps}` }, title(said)), words(10, 31, said, "soft tag")];
}

function latencies(strip, xOf) {
  const latency = ({ time, since }) => Number(since - time), most = Math.max(1, ...strip.map(latency));
  const sorted = strip.map(latency).sort((left, right) => left - right), middle = sorted[sorted.length >> 1];
  const way = strip.map((each) => `M${xOf(each.time).toFixed(1)} ${48 + HALF}v${(-(latency(each) / most) * (HALF - 4) - 1).toFixed(1)}`).join("");
  const said = `a block's time to the latest unit when it became final: ${span(middle)} in the middle, ${span(most)} at most`;
  return [shape("path", { class: "bars", d: way }, title(said)), words(10, 77, `half: ${span(middle)}`, "soft tag"), words(10, 90, `most: ${span(most)}`, "soft tag")];
}

// Where a click is, in the picture's own points.
function placeIn(root, event) {
  const seen = root.getBoundingClientRect();
  return (event.clientX - seen.left) * (root.viewBox.baseVal.width / seen.width);
}

function markWindow(root, left, right) {
  const mark = root.querySelector(".window");
  mark.setAttribute("x", left - 1);
  mark.setAttribute("width", Math.max(3, right - left + 2));
}

// ---- the heat map

/** Validators by rounds: what each made. `open` is called with the time of the round that is clicked. */
function drawHeat({ heat, weights, faulty }, open) {
  const { columns, each, rounds } = heat, high = weights.length > 60 ? 6 : weights.length > 24 ? 9 : 13;
  const wide = Math.max(1, Math.min(14, Math.floor((WIDE - LABEL) / Math.max(1, columns.length)))), broad = wide < 4 ? wide : wide - 1;
  const width = LABEL + columns.length * wide + 10, root = picture("heat", width, TOP + weights.length * high + BOTTOM);
  root.append(...heatNames(weights, faulty, high), words(LABEL, 11, `${rounds} rounds with units${each > 1 ? `, ${each} a column` : ""}`, "soft tag"));
  cellWays(columns, { wide, broad, high }).forEach((way, kind) => way && root.append(shape("path", { class: `h${kind}`, d: way }, title(CELLS[kind]))));
  root.append(shape("rect", { class: "window", y: TOP - 2, height: weights.length * high + 4 }));
  root.addEventListener("click", (event) => {
    const column = columns[Math.floor((placeIn(root, event) - LABEL) / wide)];
    if (column) open(column.time);
  });
  const xOf = (time) => LABEL + wide * Math.max(0, columns.findLastIndex((column) => column.time <= time));
  return { root, mark: (from, to) => markWindow(root, xOf(from), xOf(to) + wide) };
}

function heatNames(weights, faulty, high) {
  const each = Math.ceil(LETTERS_HIGH / high), names = [];
  weights.forEach((_, who) => {
    const isFaulty = faulty.includes(who), y = TOP + who * high + high - 1;
    if (isFaulty) names.push(words(34, y, `${who} faulty`, "red tag"));
    else if (who % each === 0) names.push(words(10, y, String(who), "soft tag"));
  });
  return names;
}

// One way for each kind of cell, so that there are few shapes however many cells there are.
function cellWays(columns, { wide, broad, high }) {
  const ways = CELLS.map(() => []);
  columns.forEach(({ cells }, column) => cells.forEach((kind, who) => {
    ways[kind].push(`M${LABEL + column * wide} ${TOP + who * high}h${broad}v${high - 1}h${-broad}z`);
  }));
  return ways.map((way) => way.join(""));
}

function heatLegend() {
  const items = CELLS.map((text, kind) => element("span", "item", element("span", `cell k${kind}`), text));
  return line("legend", ...items, element("span", "quiet", "Late: it came after two validators had made units past its round's end."));
}

// ---- the small map

/** The stretch on a small map. `move` is called with the part of the width that is clicked or dragged to. */
function drawMap({ spots, lanes, width, height }, move) {
  const root = picture("map", width - LABEL, height, box(0, 0, width - LABEL, height, "band")), marks = [[], [], [], [], [], [], []], twins = [];
  for (const { x, y, label, isTwin } of spots.values()) (isTwin ? twins : marks[label ? label.colour : 6]).push(`M${Math.round(x - LABEL - 9)} ${Math.round(y)}h18`);
  const thick = Math.max(8, Math.min(20, lanes.length ? (height / lanes.length) * 0.6 : 8));
  marks.forEach((way, colour) => way.length && root.append(shape("path", { class: `m${colour}`, d: way.join(""), "stroke-width": thick })));
  if (twins.length) root.append(shape("path", { class: "mred", d: twins.join(""), "stroke-width": thick * 1.6 }));
  root.append(shape("rect", { class: "window", y: 0, height }));
  root.setAttribute("preserveAspectRatio", "none");
  root.setAttribute("width", "100%");
  root.setAttribute("height", Math.min(MAP_HIGH, height));
  const drag = (event) => event.buttons & 1 && move((placeIn(root, event) + LABEL) / width);
  root.addEventListener("pointerdown", drag);
  root.addEventListener("pointermove", drag);
  return { root, mark: (left, right) => markWindow(root, left * width - LABEL, right * width - LABEL) };
}
