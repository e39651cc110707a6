// Draws a stretch that was laid out: lanes, rounds, citations, units. A number is the height of the block that is voted
// for; a block is a box, another unit a pill, a final block has a frame, and an equivocation a red broken ring.

import { box, picture, shape, span, title, words } from "./elements.js";
import { HEAD, LABEL, areMany } from "./layout.js";

export { drawGraph, drawLinks, drawNames, showUntil };

const LONG = 10_000_000n;

/** The picture of a scene. A mark has the digest of its unit as `data-unit`. */
function drawGraph(scene, { withLines }) {
  const { spots, lanes, width, height } = scene, root = picture(areMany(lanes.length) ? "graph many" : "graph", width, height);
  root.append(...lanes.filter(({ who }) => who % 2 === 0).map((lane) => box(0, lane.top, width, lane.height, "band")), ...roundLines(scene));
  root.append(shape("g", { class: "overlay" }));
  if (withLines) root.append(shape("path", { class: "cite", d: wayOf(scene.lines) }));
  root.append(...laneLines(scene), ...[...spots.values()].map((spot) => unitMark(spot, scene.sizes)));
  return root;
}

const wayOf = (lines) => lines.map(([spot, low]) => `M${round(spot.x)} ${round(spot.y)}L${round(low.x)} ${round(low.y)}`).join("");
const round = (place) => Math.round(10 * place) / 10;

/** The lanes' names, which stay where they are while the picture scrolls. */
function drawNames({ lanes, height }, { weights, faulty }) {
  const root = picture("names", LABEL, height, box(0, 0, LABEL, height, "paper")), few = !areMany(weights.length);
  for (const { who, top, height: high } of lanes) {
    const isFaulty = faulty.includes(who), kind = isFaulty ? "red" : "";
    if (who % 2 === 0) root.append(box(0, top, LABEL, high, "band"));
    if (few) root.append(words(10, top + 20, `validator ${who}`, `big ${kind}`), words(10, top + 36, `weight ${weights[who]}${isFaulty ? " · faulty" : ""}`, isFaulty ? "red" : "soft"));
    else root.append(words(10, top + 12, `${who} · ${weights[who]}${isFaulty ? " faulty" : ""}`, `tag ${kind}`));
  }
  return root;
}

// A line where each round begins, and its number and time above, where there is room for them.
function roundLines({ rounds, bottom }) {
  const parts = [], base = rounds.length && rounds[0].begin >= LONG ? rounds[0].begin : 0n;
  let free = 0;
  for (const { x, said: number, begin, empty } of rounds) {
    parts.push(shape("path", { class: "rule", d: `M${round(x)} ${HEAD - 4}V${bottom}` }));
    if (empty) parts.push(shape("path", { class: "gap", d: `M${round(x - 34)} ${HEAD - 4}V${bottom}` }), words(x - 31, HEAD + 10, `⋯ ${empty}`, "soft tag"));
    const said = `round ${number}`, time = base ? `+${span(begin - base)}` : `${begin} ms`;
    if (x < free) continue;
    parts.push(words(x + 3, HEAD - 22, said, ""), words(x + 3, HEAD - 8, time, "soft tag"));
    free = x + 8 + Math.max(6.6 * said.length, 6 * time.length);
  }
  return parts;
}

// Each unit's line to the one before it on its lane; those that leave a fork are red and broken.
function laneLines({ steps }) {
  return steps.map(([spot, low]) => {
    const bend = spot.y === low.y ? "" : `l${round(Math.min(14, (spot.x - low.x) / 2))} ${round(spot.y - low.y)}`;
    return shape("path", { class: spot.isTwin ? "lane fork" : "lane step", d: `M${round(low.x)} ${round(low.y)}${bend}H${round(spot.x)}` });
  });
}

function unitMark(spot, { high, tag: below }) {
  const { unit, x, y, width, label } = spot, isBlock = unit.value !== null, left = x - width / 2, top = y - high / 2;
  const said = `${isBlock ? "block" : "unit"} ${unit.digest.slice(0, 16)} by ${unit.creator}, number ${unit.seq}, time ${unit.time}: ${unit.became}`;
  const mark = shape("g", { class: `u ${unit.state}`, "data-unit": unit.digest }, title(said));
  mark.append(box(left, top, width, high, `${label ? `c${label.colour}` : "none"} body${isBlock ? " block" : ""}`, isBlock ? 2 : high / 2));
  if (unit.isFinal) mark.append(box(left - 3.5, top - 3.5, width + 7, high + 7, "frame", 3));
  const out = unit.isFinal ? 6 : 3.5;
  if (spot.isTwin) mark.append(box(left - out, top - out, width + 2 * out, high + 2 * out, "ring", isBlock ? 3 : 13));
  if (label) mark.append(words(x, y + high / 5, label.text, `i${label.colour}${isBlock ? " bold" : ""} label`));
  spot.tags.forEach((tag, place) => mark.append(tagMark(tag, x, y + high / 2 + 5 + place * below)));
  return mark;
}

// Tags stand below a unit, one below the other.
function tagMark({ kind, text, colour }, x, y) {
  if (kind === "mark") return words(x, y + 9, text, "tag m");
  const width = 6 + (kind === "start" ? 5.8 : 7.2) * text.length;
  const parts = kind === "start" ? [`c${colour}`, `tag i${colour}`] : ["none box", "tag bold"];
  return shape("g", {}, box(x - width / 2, y, width, 11.5, parts[0], 2), words(x, y + 9, text, parts[1]));
}

/** Shows those lines alone that there were with an entry of the log. */
function showUntil(root, { lines, steps }, at) {
  const cited = root.querySelector(":scope > .cite");
  if (cited) cited.setAttribute("d", wayOf(lines.filter(([spot]) => spot.unit.entry <= at)));
  root.querySelectorAll(".lane").forEach((path, place) => {
    const [{ unit, ring }] = steps[place];
    path.classList.toggle("ahead", unit.entry > at);
    path.classList.toggle("calm", ring > at);
  });
}

/** Draws, over the picture, what a unit cites and what cites it, and a halo. */
function drawLinks(root, spots, unit) {
  const overlay = root.querySelector(".overlay"), spot = spots.get(unit.digest);
  overlay.replaceChildren();
  if (!spot) return;
  const way = (digests) => wayOf(digests.map((digest) => spots.get(digest)).filter(Boolean).map((other) => [spot, other]));
  overlay.append(shape("path", { class: "cites", d: way(unit.panorama) }), shape("path", { class: "citedby", d: way(unit.citing.map(({ digest }) => digest)) }));
  overlay.append(shape("circle", { class: "halo", cx: spot.x, cy: spot.y, r: 19 }));
}
