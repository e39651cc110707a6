// What the view works out of a log's facts: rounds, lateness, finality, searches, labels, places.
import assert from "node:assert/strict";
import { test } from "node:test";
import { CELLS, LogFacts } from "../facts.js";
import { labelsOf, layOut } from "../layout.js";

const digestOf = (number) => number.toString(16).padStart(64, "0");

// A log of validators of weight 1 and rounds of 16 ms: each unit is [creator, number, time, digests that it sees ..].
function logOf(lanes, units, finals = []) {
  const briefs = units.map(([creator, seq, time], journal) => ({ creator, seq: BigInt(seq), time: BigInt(time), exponent: 4, isBlock: journal === 0, journal }));
  const full = (journal) => ({ digest: digestOf(journal), ...briefs[journal], entry: journal + 1, value: journal ? null : "x", vote: digestOf(0), panorama: sees(journal), state: "settled" });
  const sees = (journal) => Array.from({ length: lanes }, (_, who) => units[journal][3 + who] ?? "absent");
  const log = { name: "a log", weights: Array(lanes).fill("1"), exponent: 4, faulty: [], finals, head: [], notes: [], marked: {}, hasStarts: false };
  const facts = new LogFacts({ ...log, briefs: [...briefs] }, {
    unit: (place) => full(facts.briefs[place].journal), digest: (place) => digestOf(facts.briefs[place].journal),
    seen: (place, who) => sees(facts.briefs[place].journal)[who], height: () => 0, walk: () => [],
  });
  return facts;
}

const cells = (facts) => facts.heat().columns.map((column) => [...column.cells].map((kind) => CELLS[kind]));

test("a cell says what a validator made in a round", () => {
  const facts = logOf(3, [[0, 0, 16], [1, 0, 17], [1, 1, 27], [2, 0, 33], [2, 0, 34]]);
  assert.deepEqual(cells(facts), [["one unit", "both units", "none"], ["none", "none", "two units with one number"]]);
});

test("a unit is late that came after two validators were past its round", () => {
  const late = (units) => cells(logOf(3, units))[0][2];
  assert.equal(late([[0, 0, 16], [0, 1, 40], [2, 0, 18]]), "one unit");
  assert.equal(late([[0, 0, 33], [1, 0, 32], [2, 0, 18]]), "late");
  assert.equal(late([[0, 0, 31], [1, 0, 32], [2, 0, 18]]), "one unit");
});

test("many rounds share a column, and what is wrong in one of them is shown", () => {
  const units = Array.from({ length: 3000 }, (_, place) => [0, place, 16 * (place + 1)]);
  units.push([1, 0, 16], [1, 0, 17]);
  const { columns, each, rounds } = logOf(2, units).heat();
  assert.deepEqual([columns.length, each, rounds], [1000, 3, 3000]);
  assert.equal(CELLS[columns[0].cells[1]], "two units with one number");
  assert.equal(CELLS[columns[5].cells[0]], "one unit");
});

test("a block's latency ends with the latest unit that had come", () => {
  const final = { block: digestOf(0), height: 0, level: 1, quorum: "2", at: 3 };
  const [found] = logOf(2, [[0, 0, 16], [1, 0, 40], [1, 1, 27], [0, 1, 90]], [final]).strip();
  assert.deepEqual([found.time, found.since], [16n, 40n]);
});

test("the unit with which a block became final is marked", () => {
  const facts = logOf(2, [[0, 0, 16], [1, 0, 20]], [{ block: digestOf(0), height: 0, level: 1, quorum: "2", at: 2 }]);
  assert.deepEqual(facts.stretch(0, 9).units.map(({ isFinal, tags }) => [isFinal, tags]), [[true, []], [false, [{ kind: "final", blocks: [digestOf(0)] }]]]);
});

test("units are found", () => {
  const facts = logOf(2, [[0, 0, 16], [1, 0, 20], [1, 1, 27]], [{ block: digestOf(0), height: 7, level: 1, quorum: "2", at: 2 }]);
  const found = (text, from = -1) => facts.find(text, from)?.place;
  assert.deepEqual(["1#1", "HEIGHT 7", digestOf(2), "0000", "height 8", "2#0", "zz", ""].map((text) => found(text)), [2, 0, 2, 0, undefined, undefined, undefined, undefined]);
  assert.deepEqual([-1, 1, 2].map((from) => found("validator 1", from)), [1, 2, 1]);
});

test("a unit in full names whom it sees and who sees it", () => {
  const facts = logOf(2, [[0, 0, 16], [1, 0, 20, digestOf(0)], [1, 1, 27, digestOf(0), digestOf(1)]]);
  const unit = facts.unitOf(digestOf(0));
  assert.deepEqual(unit.citing.map(({ place }) => place), [1, 2]);
  assert.deepEqual(facts.unitOf(digestOf(2)).sees.map((seen) => seen.place), [0, 1]);
  assert.equal(facts.unitOf(digestOf(9)), null);
});

test("a stretch from a time on", () => {
  const facts = logOf(1, Array.from({ length: 50 }, (_, place) => [0, place, 16 * (place + 1)]));
  const answer = (question) => facts.answer({ kind: "stretch", most: 10, ...question });
  assert.equal(answer({ time: 160n }).from, 9);
  assert.equal(answer({ time: 9999n }).from, 40);
  assert.equal(answer({ from: -5 }).units.length, 10);
});

test("blocks of one height have letters, in both logs the same ones", () => {
  const block = (number, height, time) => ({ digest: digestOf(number), height, time: BigInt(time) });
  const labels = labelsOf([block(5, 0, 16), block(3, 1, 40)], [block(3, 1, 40), block(4, 0, 17)]);
  assert.deepEqual([5, 4, 3].map((number) => labels.get(digestOf(number)).text), ["0a", "0b", "1"]);
  assert.equal(labelsOf(Array.from({ length: 30 }, (_, place) => block(place, 0, 16))).get(digestOf(27)).text, "0ab");
});

function placed(units, how) {
  const facts = logOf(3, units), labels = labelsOf([{ digest: digestOf(0), height: 0, time: 16n }]);
  return layOut(facts.stretch(0, 99).units, { weights: ["1", "1", "1"], exponent: 4, base: 1n, labels, isToScale: false, withStarts: false, marked: {}, ...how });
}

test("a unit stands right of those that it cites, and a fork has its own track", () => {
  const { spots } = placed([[0, 0, 16], [1, 0, 17, digestOf(0)], [1, 0, 17], [2, 0, 40, digestOf(0), digestOf(1)]]);
  const spot = (number) => spots.get(digestOf(number));
  assert.ok(spot(0).x < spot(1).x && spot(1).x < spot(3).x);
  assert.deepEqual([spot(1).track, spot(2).track, spot(1).isTwin, spot(3).isTwin, spot(1).ring], [0, 1, true, false, 3]);
});

test("a citation that follows from another one isn't drawn", () => {
  const { lines } = placed([[0, 0, 16], [1, 0, 17, digestOf(0)], [2, 0, 40, digestOf(0), digestOf(1)]]);
  assert.deepEqual(lines.map(([spot, low]) => [spot.unit.journal, low.unit.journal]), [[1, 0], [2, 1]]);
});

test("time to scale is to scale", () => {
  const { spots, perSecond } = placed([[0, 0, 16], [1, 0, 26], [2, 0, 46]], { isToScale: true });
  const [first, second, third] = [0, 1, 2].map((number) => spots.get(digestOf(number)).x);
  assert.ok(Math.abs((third - second) / (second - first) - 2) < 1e-9);
  assert.ok(Math.abs(second - first - perSecond / 100) < 1e-9);
});

test("whom a unit newly marks is told once", () => {
  const { spots } = placed([[0, 0, 16, "absent", "faulty"], [0, 1, 30, digestOf(0), "faulty"]]);
  assert.deepEqual([...spots.values()].map(({ tags }) => tags.map(({ text }) => text)), [["!1"], []]);
});
