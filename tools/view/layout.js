// Where each thing of a stretch stands: lanes, rounds, units, citations. Nothing is judged.

export const LABEL = 128, HEAD = 40;
const LANES_FEW = 24, TRACKS_APART = 6, LEAD = 20, EMPTY = 54, ROUND_WIDE = 130, WIDEST = 30_000, COLOURS = 6, LETTERS = 26, MARKS_MOST = 3;
const FEW = { high: 20, letter: 6.6, cite: 36, gap: 14, track: 30, tag: 13, least: 50 };
const MANY = { high: 13, letter: 5.4, cite: 20, gap: 5, track: 17, tag: 15, least: 17 };

/** Sizes of units and lanes: smaller ones where there are many lanes. */
export const sizesFor = (lanes) => (lanes > LANES_FEW ? MANY : FEW);
export const areMany = (lanes) => lanes > LANES_FEW;

/**
 * How blocks are written: the height, and a letter where several have that height. In order of height, time and digest.
 * @param {{digest: string, height: number, time: bigint}[][]} lists blocks of several logs
 * @returns {Map<string, {text: string, colour: number}>}
 */
export function labelsOf(...lists) {
  const blocks = [...new Map(lists.flat().map((block) => [block.digest, block])).values()], counts = new Map(), places = new Map();
  const before = (left, right) => left.height - right.height || (left.time < right.time ? -1 : left.time > right.time ? 1 : left.digest < right.digest ? -1 : 1);
  for (const { height } of blocks) counts.set(height, (counts.get(height) ?? 0) + 1);
  return new Map(blocks.sort(before).map(({ digest, height }, colour) => {
    const place = places.get(height) ?? 0;
    places.set(height, place + 1);
    return [digest, { text: height + (counts.get(height) > 1 ? letters(place) : ""), colour: colour % COLOURS }];
  }));
}

// a, b, .., z, aa, ab, ..
function letters(number) {
  const last = String.fromCharCode(97 + (number % LETTERS));
  return number < LETTERS ? last : letters(Math.floor(number / LETTERS) - 1) + last;
}

/**
 * Lays out the units of a stretch, which are in the order of time.
 * @param {import("./facts.js").Unit[]} units
 * @param {{weights: string[], exponent: number, base: bigint, labels: Map, isToScale: boolean, withStarts: boolean,
 *   marked: object}} how `base` is the log's first round, which is called round 1.
 */
export function layOut(units, how) {
  const sizes = sizesFor(how.weights.length), spots = new Map(), shown = units.filter(({ creator }) => creator < how.weights.length);
  for (const unit of shown) spots.set(unit.digest, spotOf(unit, how, sizes));
  markTwins(spots, how);
  for (const spot of spots.values()) spot.tags.push(...marksOf(spot, spots));
  for (const lane of lanesOf(spots).values()) setTracks(lane, spots);
  const scene = { spots, sizes, lines: linesOf(spots), steps: stepsOf(spots), left: units.length - shown.length };
  const columns = how.isToScale ? new Scale(scene, how) : new Columns(scene, how);
  columns.place([...spots.values()]);
  Object.assign(scene, { rounds: columns.rounds, width: columns.most + 40, perSecond: columns.perSecond });
  return Object.assign(scene, stackLanes(spots, how.weights.length, sizes));
}

function spotOf(unit, { labels, withStarts, marked }, sizes) {
  const label = labels.get(unit.vote) ?? null, shown = unit.tags.filter(({ kind }) => kind !== "start" || withStarts);
  const tags = shown.map((tag) => tagOf(tag, labels));
  if (marked[unit.digest]?.includes("conflict")) tags.push({ kind: "mark", text: "conflict" });
  return { unit, label, tags, width: Math.max(sizes.high, 8 + sizes.letter * (label?.text.length ?? 0)), x: 0, y: 0, track: 0, key: null, isTwin: false, ring: 0 };
}

// A start is written as its block and its levels, 0·1,2; blocks that became final with a unit as \u27133–5.
function tagOf({ kind, blocks, levels }, labels) {
  const [first, last] = [blocks?.[0], blocks?.[blocks.length - 1]].map((block) => labels.get(block));
  if (kind === "start") return { kind, text: `${first?.text}·${levels.join(",")}`, colour: first?.colour };
  return { kind, text: `\u2713${first?.text}${last === first ? "" : `–${last?.text}`}` };
}

function lanesOf(spots) {
  const lanes = new Map();
  for (const spot of spots.values()) {
    if (!lanes.has(spot.unit.creator)) lanes.set(spot.unit.creator, []);
    lanes.get(spot.unit.creator).push(spot);
  }
  return lanes;
}

// Two units with one creator and number, or a unit of a culprit's pair, have a ring.
function markTwins(spots, { marked }) {
  const first = new Map();
  for (const spot of spots.values()) {
    const { creator, seq, digest } = spot.unit, name = `${creator} ${seq}`, twin = first.get(name);
    if (marked[digest]?.includes("culprit")) Object.assign(spot, { isTwin: true, ring: spot.unit.entry });
    if (twin) for (const each of [spot, twin]) Object.assign(each, { isTwin: true, ring: Math.max(spot.unit.entry, twin.unit.entry) });
    first.set(name, spot);
  }
}

// Whom a unit marks as faulty, and the one before it on its lane doesn't.
function marksOf(spot, spots) {
  const before = beforeOf(spot, spots), isNew = (seen, who) => seen === "faulty" && (before ? before.unit.panorama[who] !== "faulty" : spot.unit.seq === 0n);
  const marked = [...spot.unit.panorama.keys()].filter((who) => isNew(spot.unit.panorama[who], who));
  if (!marked.length) return [];
  return [{ kind: "mark", text: marked.length > MARKS_MOST ? `!${marked.length} faulty` : `!${marked.join(",")}` }];
}

const beforeOf = ({ unit }, spots) => spots.get(unit.panorama[unit.creator]);

// ---- columns: the time, and how long a chain of citations of that same time leads to it

function keyOf(spot, spots) {
  const { time, panorama } = spot.unit, depths = [0];
  for (const seen of panorama) {
    const low = spots.get(seen);
    if (low?.key && low.unit.time === time) depths.push(low.key.depth + 1);
  }
  return { time, depth: Math.max(...depths) };
}

const isBefore = (left, right) => left.time < right.time || (left.time === right.time && left.depth < right.depth);

// A unit goes on along its own one's track, and a fork begins another. A track is used again where there are many.
function setTracks(lane, spots) {
  const begun = new Set(), ends = [];
  for (const spot of lane) {
    spot.key = keyOf(spot, spots);
    const before = beforeOf(spot, spots), goesOn = before && !begun.has(before);
    if (goesOn) begun.add(before);
    const free = ends.length < TRACKS_APART ? -1 : ends.findIndex((end) => isBefore(end, spot.key));
    spot.track = goesOn ? before.track : free < 0 ? ends.length : free;
    ends[spot.track] = spot.key;
  }
}

// ---- citations

// Those citations that follow from no other one of the same unit. Another unit that sees that lane as far says it too.
function linesOf(spots) {
  const lines = [];
  for (const spot of spots.values()) {
    const cited = spot.unit.panorama.map((seen) => spots.get(seen)).filter(Boolean);
    for (const low of cited) {
      const { creator } = low.unit;
      const isSaid = cited.some((other) => other !== low && reaches(other.unit.panorama[creator], low, spots));
      if (creator !== spot.unit.creator && !isSaid) lines.push([spot, low]);
    }
  }
  return lines;
}

// Whether an observation of a lane is that unit or a later one of it.
function reaches(seen, low, spots) {
  if (seen === low.unit.digest) return true;
  const other = spots.get(seen);
  return other !== undefined && other.track === low.track && other.unit.seq > low.unit.seq;
}

function stepsOf(spots) {
  return [...spots.values()].map((spot) => [spot, beforeOf(spot, spots)]).filter(([, before]) => before);
}

// ---- from left to right

class Axis {
  constructor(scene, { exponent, base }) {
    Object.assign(this, { scene, exponent: BigInt(exponent), base, rounds: [], most: LABEL + LEAD, perSecond: null });
  }

  open(x, number, empty) {
    this.rounds.push({ x, number, said: number - this.base + 1n, begin: number << this.exponent, empty });
  }

  roundOf({ unit }) {
    return unit.time >> this.exponent;
  }

  settle(spot, x) {
    spot.x = x;
    this.most = Math.max(this.most, x + spot.width / 2);
  }
}

// Time runs to the right, but not in proportion: a moment at which nothing happened takes no room.
class Columns extends Axis {
  place(spots) {
    const cited = new Map(), ends = new Map();
    for (const [spot, low] of [...this.scene.lines, ...this.scene.steps]) cited.set(spot, [...(cited.get(spot) ?? []), low]);
    spots.sort((left, right) => (isBefore(left.key, right.key) ? -1 : isBefore(right.key, left.key) ? 1 : 0));
    for (let at = 0, end = 0; at < spots.length; at = end) {
      while (end < spots.length && !isBefore(spots[at].key, spots[end].key)) end++;
      this.placeColumn(spots.slice(at, end), cited, ends);
    }
  }

  placeColumn(column, cited, ends) {
    const { sizes } = this.scene, laneOf = ({ unit, track }) => `${unit.creator} ${track}`;
    let x = this.begin(column[0]);
    for (const spot of column) {
      const own = ends.get(laneOf(spot));
      x = Math.max(x, (own ?? 0) + (own === undefined ? 0 : sizes.gap + spot.width / 2), ...(cited.get(spot) ?? []).map((low) => low.x + sizes.cite));
    }
    for (const spot of column) {
      this.settle(spot, x);
      ends.set(laneOf(spot), x + spot.width / 2);
    }
    this.at = x;
  }

  // The least place of a column. A round's line stands before its first one, with room for rounds that have no unit.
  begin(spot) {
    const number = this.roundOf(spot), last = this.rounds[this.rounds.length - 1];
    if (last?.number === number) return this.at + 5;
    const empty = last ? number - last.number - 1n : 0n;
    const x = last ? Math.max(this.most + 22, last.x + 84) + (empty ? EMPTY : 0) : LABEL + 14;
    this.open(x, number, empty);
    return x + LEAD;
  }
}

// Time to scale. Units that come close to each other cover each other.
class Scale extends Axis {
  place(spots) {
    if (!spots.length) return;
    const first = this.roundOf(spots[0]) << this.exponent, last = spots[spots.length - 1].unit.time;
    const length = Number(1n << this.exponent), scale = Math.min(ROUND_WIDE / length, WIDEST / Math.max(1, Number(last - first)));
    const xOf = (time) => LABEL + 14 + Number(time - first) * scale;
    this.perSecond = 1000 * scale;
    for (const spot of spots) {
      this.settle(spot, xOf(spot.unit.time) + LEAD / 2);
      const number = this.roundOf(spot);
      if (this.rounds[this.rounds.length - 1]?.number !== number) this.open(xOf(number << this.exponent), number, 0n);
    }
  }
}

// ---- from top to bottom

// Stacks the lanes, each as high as its tracks and their tags need.
function stackLanes(spots, count, sizes) {
  const rooms = Array.from({ length: count }, () => [0]), lanes = [], byCreator = lanesOf(spots);
  for (const [who, lane] of byCreator) for (const { track, tags } of lane) rooms[who][track] = Math.max(rooms[who][track] ?? 0, tags.length);
  let y = HEAD;
  rooms.forEach((room, who) => {
    const heights = Array.from(room, (tags) => sizes.track + sizes.tag * (tags ?? 0)), tops = [];
    heights.reduce((sum, height) => (tops.push(sum), sum + height), y + (sizes.least > sizes.track ? 6 : 0));
    const height = Math.max(sizes.least, tops[tops.length - 1] - y + heights[heights.length - 1]);
    for (const spot of byCreator.get(who) ?? []) spot.y = tops[spot.track] + sizes.track / 2;
    lanes.push({ who, top: y, height });
    y += height;
  });
  return { lanes, bottom: y, height: y + 6 };
}
