// What the core says of a log that it replayed, as the view asks for it.

import { Refusal, hex, readVertex } from "../../bindings/js/highway.js";
import { LogFacts } from "../view/facts.js";
import { batchesOf } from "./replay.js";

export { factsOf, unitFacts, valueText };

const VALUE_MOST = 400, WALK_MOST = 20_000, HEAD = 57, SEEN = ["absent", null, "faulty"];

const valueText = (value) => {
  if (value === null) return null;
  const text = new TextDecoder().decode(value), isText = !/[\p{C}\p{Zl}\p{Zp}\ufffd]/u.test(text);
  return (isText ? `"${text}"` : `0x${hex(value)}`).slice(0, VALUE_MOST);
};

/** What the core says of a unit, or null. */
function unitFacts(core, digest) {
  const unit = core.unit(digest);
  if (!unit) return null;
  const panorama = unit.panorama.map((seen) => seen.unit ?? seen.kind);
  return { ...unit, value: valueText(unit.value), panorama, endorsed: [], became: unit.state, judged: [], tags: [] };
}

// The units of the journal in few numbers.
function briefsOf(core) {
  const found = [], { journal } = core.summary();
  for (let place = 0; place < journal; place++) {
    const vertex = core.entry(place);
    if (vertex[0] !== 1) continue;
    const { creator, seq, time, exponent, value } = readVertex(vertex).units[0];
    found.push({ journal: place, creator, seq, time, exponent, isBlock: value !== null });
  }
  return found;
}

// A validator's observation in the vertex of a unit, which is walked through up to there.
function seenIn(vertex, who) {
  let at = HEAD + 1;
  for (let left = who; left > 0; left--) at += vertex[at] === 1 ? 33 : 1;
  return vertex[at] === 1 ? hex(vertex.subarray(at + 1, at + 33)) : SEEN[vertex[at]];
}

/** The facts of a replayed log. `marked` are the units that an audit is about. */
function factsOf(replay, marked) {
  const { core, library, settings, accepted } = replay, digests = [];
  const vertexAt = (place) => core.entry(facts.briefs[place].journal);
  const digest = (place) => {
    if (digests[place]) return digests[place];
    const vertex = vertexAt(place);
    return (digests[place] = library.sha256(vertex.subarray(1, vertex.length - 32)));
  };
  const finals = core.decisions().map((final) => ({ ...final, quorum: String(final.quorum) }));
  const log = { name: replay.name, weights: settings.weights.map(String), exponent: settings.minExponent, faulty: core.faulty(), finals, marked };
  const facts = new LogFacts({ ...log, briefs: briefsOf(core), head: [], notes: [], hasStarts: false }, {
    digest,
    unit: (place) => ({ ...unitFacts(core, digest(place)), entry: accepted[facts.briefs[place].journal] }),
    seen: (place, who) => seenIn(vertexAt(place), who),
    height: (block) => core.unit(block)?.height ?? null,
    walk: () => new Walker(replay).run(),
  });
  return facts;
}

/** Replays a log once more, entry by entry, and notes what each did. */
class Walker {
  constructor(replay) {
    Object.assign(this, { replay, core: replay.library.core(replay.config), steps: [], parked: new Set(), decided: 0, faulty: new Set() });
  }

  async run() {
    try {
      for await (const { bytes, vertices } of batchesOf(this.replay.library, this.replay.file)) {
        for (const { start, end, verdict } of vertices) {
          if (this.steps.length === WALK_MOST) return this.steps;
          this.steps.push(this.step(bytes.slice(start, end), verdict));
        }
      }
      return this.steps;
    } finally {
      this.core.close();
    }
  }

  step(vertex, verdict) {
    const { core } = this, [answer] = core.deliverAll(vertex, [{ start: 0, end: vertex.length, verdict }]);
    const { settled, parked, dropped, fork, decided } = core.summary(), { unit, what } = this.named(vertex);
    const finals = Array.from({ length: decided - this.decided }, (_, place) => core.decision(this.decided + place).block);
    const faulty = core.faulty().filter((who) => !this.faulty.has(who));
    this.decided = decided;
    for (const who of faulty) this.faulty.add(who);
    return { what, unit, became: becameText(answer), settles: this.settles(answer, unit), counts: [settled, parked, dropped], finals, faulty, fork };
  }

  // The units that an entry settled: its own, and those that had waited.
  settles(answer, unit) {
    if (answer.kind === "parked") this.parked.add(unit);
    if (answer.kind !== "admitted") return [];
    const found = unit ? [unit] : [];
    for (const digest of answer.settled > found.length ? this.parked : []) if (this.core.place(digest).kind === "settled") found.push(digest);
    for (const digest of found) this.parked.delete(digest);
    return found;
  }

  named(vertex) {
    const { kind, units, endorser, unit: endorsed } = readVertex(vertex);
    if (kind === "endorsement") return { unit: null, what: `endorsement of ${hex(endorsed).slice(0, 8)} by ${endorser}` };
    const [digest, other] = units.map(({ spelled }) => this.replay.library.sha256(spelled)), { creator, seq, value } = units[0];
    if (other) return { unit: null, what: `evidence against ${creator}: ${digest.slice(0, 8)} and ${other.slice(0, 8)}` };
    return { unit: digest, what: `${value === null ? "unit" : "block"} ${digest.slice(0, 8)} by ${creator}, number ${seq}` };
  }
}

function becameText(answer) {
  if (answer instanceof Refusal) return answer.message;
  return { admitted: `admitted ${answer.settled}`, parked: `parked ${answer.missing}`, dropped: `dropped ${answer.rule}`, repeat: "repeat" }[answer.kind];
}
