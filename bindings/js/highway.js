/**
 * The core of a Highway validator as WebAssembly: nodes, audits, certificates, by the names of the crate for Rust.
 *
 * A module comes from `tools/page.sh --module`. `await load(bytes)` answers a {@link Library}. A digest is a string of
 * 64 hexadecimal digits, bytes are a `Uint8Array`. Weights, times and sequence numbers are a `BigInt`; what counts
 * entries or blocks is a number. A call that can't answer throws a {@link HighwayError}; then nothing has changed.
 *
 * @module highway
 */

export { certifiedConfig, LogError, LogReader, readConfig, readLog, readVertex } from "./log.js";

/** Why a call gives no answer. `status` is the library's own. */
export class HighwayError extends Error {
  /** @param {string} said @param {number} status */
  constructor(said, status) {
    super(said);
    this.name = this.constructor.name;
    this.status = status;
  }
}
/** There was no memory. The node is as it was. */
export class OutOfMemory extends HighwayError {}
/** There is none. */
export class Nothing extends HighwayError {}
/** A validator, a place, a moment or a length is outside its range. */
export class OutOfRange extends HighwayError {}
/** What was asked for is longer than its format or its journal allows. */
export class TooLong extends HighwayError {}
/** The two nodes are of different configurations. */
export class OtherInstance extends HighwayError {}
/** The node was closed. */
export class Closed extends HighwayError {}
/** The bytes are no spelling: `fault` says what is wrong, and `at` where the field begins that is refused. */
export class BadBytes extends HighwayError {}
/** The configuration breaks the limit `limit`; `at` is the validator without weight. */
export class BadConfig extends HighwayError {}
/** The verdict was no. */
export class BadSignature extends HighwayError {}
/** The evidence is no pair of one creator's units with one number: `fault` says why. */
export class BadPair extends HighwayError {}
/** Another unit has the digest `digest`. */
export class Clash extends HighwayError {}
/** The journal is as long as it may be. */
export class RecordsFull extends HighwayError {}
/** As many units wait as may. */
export class ParkFull extends HighwayError {}
/** The unit breaks the rule `rule` of its own, or the endorser is no validator. */
export class LocalRule extends HighwayError {}
/** The bytes are no certificate: `part` is `certificate`, `config` or `vertex`, `fault` what is wrong, `at` the place. */
export class BadCertificate extends HighwayError {}

/**
 * A vertex was refused, and changed nothing: `error` says why.
 */
export class Refusal extends Error {
  /** @param {HighwayError} error */
  constructor(error) {
    super(`refused: ${error.message}`);
    this.name = "Refusal";
    this.error = error;
  }

  /** Whether no honest peer sends such a vertex. @returns {boolean} */
  isFaultOfSender() {
    return ![OutOfMemory, RecordsFull, ParkFull, OutOfRange].some((kind) => this.error instanceof kind);
  }
}

const BYTES = ["truncated", "trailing", "bad tag", "too long", "out of range"];
const LIMITS = ["validators", "zero weight", "total", "threshold", "levels", "exponents", "leader table", "records", "parked"];
const PAIRS = ["creator", "sequence", "instance", "same"];
const CERTIFICATES = ["bad magic", "version", "torn", "too long", "trailing"];
const SIMPLE = new Map([
  [1, [OutOfMemory, "out of memory"]],
  [2, [Nothing, "there is none"]],
  [3, [OutOfRange, "out of range"]],
  [4, [Closed, "the node was closed"]],
  [6, [TooLong, "too long"]],
  [7, [OtherInstance, "different configurations"]],
  [0x300, [BadSignature, "bad signature"]],
  [0x321, [RecordsFull, "the journal is full"]],
  [0x322, [ParkFull, "the park is full"]],
]);

/** The names of the rules that a unit keeps, by their number from 1. */
export const RULES = [
  null, "wrong instance", "unknown creator", "panorama length", "faulty self", "first sequence number",
  "round exponent", "order of the endorsed list", "no block", "creator of a cited unit", "sequence number",
  "inconsistent panorama", "time goes back", "change of the round exponent", "third unit in its round",
  "not the leader", "endorsed list shrinks", "endorsed unit isn't below it", "naive", "after the last block",
];

/** The error of a status of highway.h that isn't 0, with its details. */
export function errorOf(status, answer = { at: 0, digest: "" }) {
  const simple = SIMPLE.get(status);
  if (simple) return new simple[0](simple[1], status);
  const made = (Kind, said, details) => Object.assign(new Kind(said, status), details);
  const at = answer.at, low = status & 15;
  if (status >= 0x100 && status < 0x105) return made(BadBytes, `bad bytes: ${BYTES[low]} at ${at}`, { fault: BYTES[low], at });
  if (status > 0x200 && status < 0x20a) {
    const limit = LIMITS[low - 1], said = low === 2 ? `validator ${at} has no weight` : limit;
    return made(BadConfig, `the configuration breaks a limit: ${said}`, { limit, at });
  }
  if (status >= 0x310 && status < 0x314) return made(BadPair, `no pair: ${PAIRS[low]}`, { fault: PAIRS[low] });
  if (status === 0x320) return made(Clash, `another unit has the digest ${answer.digest}`, { digest: answer.digest });
  const rule = status - 0x400;
  if (RULES[rule]) {
    return made(LocalRule, `the unit breaks a rule of its own: ${RULES[rule]}`, { rule });
  }
  if (status >= 0x500 && status < 0x525) {
    const part = ["certificate", "config", "vertex"][(status >> 4) & 3];
    const fault = part === "certificate" ? CERTIFICATES[low] : BYTES[low];
    return made(BadCertificate, `no certificate: ${part === "certificate" ? "" : part + ": "}${fault} at ${at}`, { part, fault, at });
  }
  return new HighwayError(`status ${status}`, status);
}

const HEX = Array.from({ length: 256 }, (_, byte) => byte.toString(16).padStart(2, "0"));

/** Bytes as hexadecimal digits. @param {Uint8Array} bytes @returns {string} */
export function hex(bytes) {
  let said = "";
  for (const byte of bytes) said += HEX[byte];
  return said;
}

/** The bytes of hexadecimal digits. @param {string} digits @returns {Uint8Array} */
export function unhex(digits) {
  if (!/^([0-9a-f]{2})*$/.test(digits)) throw new OutOfRange("not hexadecimal digits", 3);
  return Uint8Array.from({ length: digits.length / 2 }, (_, place) => parseInt(digits.slice(2 * place, 2 * place + 2), 16));
}

function digestBytes(digest) {
  const bytes = unhex(digest);
  if (bytes.length !== 32) throw new OutOfRange("a digest has 64 digits", 3);
  return bytes;
}

// Memory of the module for one call: what it takes it gives back at the end of the call.
class Scratch {
  constructor(exports) {
    this.exports = exports;
    this.taken = [];
  }

  take(size) {
    const at = this.exports.hw_take(BigInt(size));
    if (!at) throw errorOf(1);
    this.taken.push(at);
    new Uint8Array(this.exports.memory.buffer, Number(at), size).fill(0);
    return Number(at);
  }

  put(bytes) {
    const at = this.exports.hw_take(BigInt(bytes.length));
    if (!at) throw errorOf(1);
    this.taken.push(at);
    new Uint8Array(this.exports.memory.buffer, Number(at), bytes.length).set(bytes);
    return Number(at);
  }

  // The memory may have moved with each call, so a view is taken anew.
  get view() {
    return new DataView(this.exports.memory.buffer);
  }

  u32(at) {
    return this.view.getUint32(at, true);
  }

  u64(at) {
    return this.view.getBigUint64(at, true);
  }

  count(at) {
    return Number(this.u64(at));
  }

  bytes(at, size) {
    return new Uint8Array(this.exports.memory.buffer, at, size).slice();
  }

  digest(at) {
    return hex(this.bytes(at, 32));
  }

  answer(at) {
    return { kind: this.u32(at), count: this.u32(at + 4), at: this.count(at + 8), digest: this.digest(at + 16) };
  }

  free() {
    for (const at of this.taken) this.exports.hw_give(at);
  }
}

const ANSWER = 48, SENT = 24, DELIVERED = 56, SIGNATURES = 140, OBSERVED = 36, NEED = 40, FACTS = 168, VALUE = 4096;
// What most calls write, and a place for an observation that a call left as it was.
const SHORT = 1024, NO_SLOT = 0xffffffff;

/**
 * @typedef {{kind: "admitted", settled: number} | {kind: "parked", missing: number} |
 *   {kind: "dropped", rule: number} | {kind: "repeat"}} Receipt What became of a vertex that was accepted.
 * @typedef {{start: number, end: number, verdict: boolean}} Sent A vertex among other bytes, and its verdict.
 * @typedef {{validator: number, unit: string, signature: Uint8Array}} Signature
 * @typedef {{kind: "unit" | "evidence" | "endorsement", signed: Signature[]}} Signatures Who signed a vertex.
 * @typedef {{journal: number, decided: number, faultyWeight: bigint, settled: number, parked: number,
 *   dropped: number, isExceeded: boolean, fork: string | null}} Summary
 * @typedef {{block: string, height: number, quorum: bigint, at: number, level: number}} Decision
 * @typedef {{kind: "absent" | "faulty"} | {kind: "correct", unit: string}} Observation
 * @typedef {{kind: "unknown"} | {kind: "settled" | "parked" | "dropped", number: number}} Place
 * @typedef {{kind: "unit" | "endorsed", digest: string} | {kind: "evidence", validator: number}} Need
 * @typedef {{digest: string, creator: number, seq: bigint, time: bigint, exponent: number, round: bigint,
 *   leader: number, value: Uint8Array | null, panorama: Observation[], endorsed: number,
 *   state: "unknown" | "settled" | "parked" | "dropped", vote: string | null, parent: string | null,
 *   height: number | null}} Unit
 * @typedef {{kind: "propose" | "confirm" | "witness", digest: string, unit: Uint8Array}} Plan
 * @typedef {{make: "propose" | "confirm" | "witness" | null, wait: string | null, leader: number, round: bigint,
 *   parent: string | null, next: bigint}} Due What is due or else why nothing is, and until when that stays so.
 * @typedef {{kind: "agree", common: number} | {kind: "clash"} | {kind: "conflict", height: number, left: string,
 *   right: string, culprits: number, weight: bigint}} Verdict
 * @typedef {{kind: "yes", block: string, instance: string, total: bigint, height: number, value: Uint8Array} |
 *   {kind: "config", error: HighwayError} | {kind: "refused", vertex: number, error: HighwayError} |
 *   {kind: "exceeded", weight: bigint} | {kind: "unstood"}} Judgement
 * @typedef {{weights: bigint[], faultTolerance?: bigint, levels?: number, minExponent?: number, maxExponent?: number,
 *   leaders?: number[] | Uint8Array, maxRecords?: number, maxParked?: number, end?: bigint | null}} Settings
 *   Leaders are validators by round, or the 32 bytes of the key by which they are drawn.
 */

/** The module, and all of it that needs no node. */
export class Library {
  /** @param {WebAssembly.Exports} exports */
  constructor(exports) {
    this.exports = exports;
  }

  // Runs it with memory for the call, which is given back.
  within(inside) {
    const room = new Scratch(this.exports);
    try {
      return inside(room);
    } finally {
      room.free();
    }
  }

  // Bytes that a call writes and says the length of; where they are more than thought, it is called again.
  written(most, call) {
    for (let size = most; ; ) {
      const found = this.within((room) => {
        const buf = room.take(size), length = call(room, BigInt(buf), BigInt(size));
        return length <= size ? room.bytes(buf, length) : length;
      });
      if (typeof found !== "number") return found;
      size = found;
    }
  }

  /** From now on the memory grows to no more than so many bytes; 0 is no limit. @param {number} bytes */
  limitMemory(bytes) {
    this.exports.hw_heap_limit(BigInt(bytes));
  }

  /** How many bytes the memory has. @returns {number} */
  memorySize() {
    return this.exports.memory.buffer.byteLength;
  }

  /** The version that the module was built with: of 1.2.3 the number 0x010203. @returns {number} */
  version() {
    return this.exports.hw_version();
  }

  /** The SHA-256 digest of the bytes. @param {Uint8Array} bytes @returns {string} */
  sha256(bytes) {
    return this.within((room) => {
      const digest = room.take(32), at = room.put(bytes);
      this.exports.hw_sha256(BigInt(at), BigInt(bytes.length), BigInt(digest));
      return room.digest(digest);
    });
  }

  /**
   * The bytes of a configuration, which name its instance. Throws BadConfig, TooLong.
   * @param {Settings} settings @returns {Uint8Array}
   */
  config(settings) {
    const { weights, faultTolerance = 0n, levels = 1, minExponent = 10, maxExponent = 20 } = settings;
    const { leaders = new Uint8Array(32), maxRecords = 32768, maxParked = 1024, end = null } = settings;
    const isDrawn = leaders instanceof Uint8Array, table = isDrawn ? [] : leaders;
    return this.written(SHORT, (room, buf, size) => {
      const [at, answer, length] = [room.take(64), room.take(ANSWER), room.take(8)];
      const heavy = room.take(8 * weights.length), told = room.take(4 * table.length), view = room.view;
      view.setBigUint64(at, BigInt(faultTolerance), true);
      view.setBigUint64(at + 8, BigInt(end ?? 0), true);
      view.setUint32(at + 16, maxRecords, true);
      view.setUint32(at + 20, maxParked, true);
      [levels, minExponent, maxExponent, isDrawn, end !== null].forEach((it, place) => view.setUint8(at + 24 + place, Number(it)));
      if (isDrawn) leaders.slice(0, 32).forEach((it, place) => view.setUint8(at + 29 + place, it));
      weights.forEach((it, place) => view.setBigUint64(heavy + 8 * place, BigInt(it), true));
      table.forEach((it, place) => view.setUint32(told + 4 * place, it, true));
      const words = [at, heavy, weights.length, told, table.length].map(BigInt);
      const status = this.exports.hw_config(...words, buf, size, BigInt(length), BigInt(answer));
      if (status) throw errorOf(status, room.answer(answer));
      return room.count(length);
    });
  }

  /** A node that has received nothing. Throws BadBytes, BadConfig. @param {Uint8Array} config @returns {Core} */
  core(config) {
    return new Core(this, config);
  }

  /** Who signed the vertex, and what. Throws BadBytes. @param {Uint8Array} vertex @returns {Signatures} */
  signatures(vertex) {
    return this.within((room) => {
      const at = room.put(vertex), signed = room.take(SIGNATURES), answer = room.take(ANSWER);
      const status = this.exports.hw_signed(BigInt(at), BigInt(vertex.length), BigInt(signed), BigInt(answer));
      if (status) throw errorOf(status, room.answer(answer));
      return signaturesAt(room, signed);
    });
  }

  /**
   * The vertex of a unit with its creator's signature. Throws BadBytes.
   * @param {Uint8Array} unit @param {Uint8Array} signature 32 bytes @returns {Uint8Array}
   */
  signed(unit, signature) {
    return this.written(unit.length + 64, (room, buf, size) => {
      const [length, answer, at] = [room.take(8), room.take(ANSWER), room.put(unit)];
      const words = [at, unit.length, room.put(slot(signature))].map(BigInt);
      const status = this.exports.hw_with_signature(...words, buf, size, BigInt(length), BigInt(answer));
      if (status) throw errorOf(status, room.answer(answer));
      return room.count(length);
    });
  }

  /**
   * The vertex of a validator's endorsement of a unit.
   * @param {number} endorser @param {string} unit @param {Uint8Array} signature 32 bytes @returns {Uint8Array}
   */
  endorsement(endorser, unit, signature) {
    return this.written(SHORT, (room, buf, size) => {
      const length = room.take(8), words = [room.put(digestBytes(unit)), room.put(slot(signature))].map(BigInt);
      const status = this.exports.hw_endorsement(endorser, ...words, buf, size, BigInt(length));
      if (status) throw errorOf(status);
      return room.count(length);
    });
  }

  /** What may be a certificate: each call reads the bytes. @param {Uint8Array} bytes @returns {Certificate} */
  certificate(bytes) {
    return new Certificate(this, bytes);
  }
}

function slot(signature) {
  if (signature.length !== 32) throw new OutOfRange("a signature has 32 bytes", 3);
  return signature;
}

function signatureAt(room, at) {
  return { validator: room.u32(at), unit: room.digest(at + 4), signature: room.bytes(at + 36, 32) };
}

function signaturesAt(room, at) {
  const kind = ["unit", "evidence", "endorsement"][room.u32(at)];
  const signed = [signatureAt(room, at + 4)];
  if (kind === "evidence") signed.push(signatureAt(room, at + 72));
  return { kind, signed };
}

// A number of 64 bits; one below 0 is a great one there.
function putCount(view, at, count) {
  view.setUint32(at, count >>> 0, true);
  view.setUint32(at + 4, Math.floor(count / 0x100000000) >>> 0, true);
}

function receiptAt(room, view, at) {
  const status = view.getUint32(at, true);
  if (status) return new Refusal(errorOf(status, room.answer(at + 8)));
  const kind = view.getUint32(at + 8, true), count = view.getUint32(at + 12, true);
  if (kind === 0) return { kind: "admitted", settled: count };
  if (kind === 1) return { kind: "parked", missing: count };
  return kind === 2 ? { kind: "dropped", rule: count } : { kind: "repeat" };
}

function observationAt(room, at) {
  const kind = room.u32(at);
  return kind === 1 ? { kind: "correct", unit: room.digest(at + 4) } : { kind: kind === 0 ? "absent" : "faulty" };
}

function unitAt(room, facts, list, places, value) {
  const word = (place) => room.u32(facts + 4 * place), isBlock = word(4) === 1;
  const state = ["unknown", "settled", "parked", "dropped"][word(3)], panorama = [];
  for (let place = 0; place < places && room.u32(list + OBSERVED * place) !== NO_SLOT; place++) {
    panorama.push(observationAt(room, list + OBSERVED * place));
  }
  return {
    digest: room.digest(facts + 72), creator: word(0), seq: room.u64(facts + 32), time: room.u64(facts + 40), exponent: word(1),
    round: room.u64(facts + 48), leader: word(2), value: isBlock ? room.bytes(value, room.count(facts + 64)) : null, panorama,
    endorsed: word(7), state, vote: word(6) ? room.digest(facts + 136) : null,
    parent: word(5) ? room.digest(facts + 104) : null, height: state === "settled" && isBlock ? room.count(facts + 56) : null,
  };
}

function needAt(room, at) {
  const kind = room.u32(at);
  if (kind === 1) return { kind: "evidence", validator: room.u32(at + 4) };
  return { kind: kind === 0 ? "unit" : "endorsed", digest: room.digest(at + 8) };
}

/**
 * A node of one instance: what it received, and all that follows from it. Who made it closes it.
 */
export class Core {
  /** @param {Library} library @param {Uint8Array} config */
  constructor(library, config) {
    this.library = library;
    this.exports = library.exports;
    this.validators = Math.floor(config.length / 8);
    const at = this.exports.hw_take(8n);
    if (!at) throw errorOf(1);
    new DataView(this.exports.memory.buffer).setBigUint64(Number(at), 0n, true);
    this.handle = at;
    try {
      library.within((room) => {
        const answer = room.take(ANSWER), bytes = room.put(config);
        const status = this.exports.hw_core_new(BigInt(bytes), BigInt(config.length), BigInt(answer), at);
        if (status) throw errorOf(status, room.answer(answer));
      });
    } catch (error) {
      this.exports.hw_give(at);
      throw error;
    }
  }

  /** Frees the node; a second call does nothing. After it each call throws Closed. */
  close() {
    if (this.handle === null) return;
    this.exports.hw_core_free(this.handle);
    this.exports.hw_give(this.handle);
    this.handle = null;
  }

  // Calls an export with the node first, and answers what `read` makes of it; other statuses than 0 are thrown.
  call(name, size, words, read) {
    if (this.handle === null) throw errorOf(4);
    return this.library.within((room) => {
      const at = room.take(size), status = this.exports[name](this.handle, ...words(room), BigInt(at));
      if (status) throw errorOf(status);
      return read(room, at);
    });
  }

  // The same of a call that writes bytes.
  bytes(most, call) {
    if (this.handle === null) throw errorOf(4);
    return this.library.written(most, (room, buf, size) => {
      const [status, length] = call(room, buf, size);
      if (status) throw errorOf(status);
      return length();
    });
  }

  /**
   * Takes the vertex that the bytes spell, with the verdict on its signatures. Throws Refusal, which changes nothing.
   * @param {Uint8Array} vertex @param {boolean} verdict @returns {Receipt}
   */
  deliver(vertex, verdict) {
    const [answer] = this.deliverAll(vertex, [{ start: 0, end: vertex.length, verdict }]);
    if (answer instanceof Refusal) throw answer;
    return answer;
  }

  /**
   * Takes vertices that stand in the bytes, one after the other, and answers each; what lies between doesn't count.
   * The units among them are hashed four side by side, so several in one call cost less.
   * @param {Uint8Array} bytes @param {Sent[]} vertices @returns {(Receipt | Refusal)[]}
   */
  deliverAll(bytes, vertices) {
    if (this.handle === null) throw errorOf(4);
    return this.library.within((room) => {
      const at = room.put(bytes), sent = room.take(SENT * vertices.length), delivered = room.take(DELIVERED * vertices.length);
      const view = room.view;
      vertices.forEach(({ start, end, verdict }, place) => {
        putCount(view, sent + SENT * place, start);
        putCount(view, sent + SENT * place + 8, end - start);
        view.setUint32(sent + SENT * place + 16, Number(verdict), true);
      });
      const count = BigInt(vertices.length);
      const words = [BigInt(at), BigInt(bytes.length), BigInt(sent), count, BigInt(delivered), count];
      const status = this.exports.hw_deliver(this.handle, ...words);
      if (status) throw errorOf(status);
      const after = room.view;
      return vertices.map((_, place) => receiptAt(room, after, delivered + DELIVERED * place));
    });
  }

  /** How much the node has of what. @returns {Summary} */
  summary() {
    return this.call("hw_summary", 80, () => [], (room, at) => ({
      journal: room.count(at), decided: room.count(at + 8), faultyWeight: room.u64(at + 16), settled: room.u32(at + 24),
      parked: room.u32(at + 28), dropped: room.u32(at + 32), isExceeded: room.u32(at + 36) === 1,
      fork: room.u32(at + 40) === 1 ? room.digest(at + 44) : null,
    }));
  }

  /** The fork choice, or null where the node observes no unit. @returns {string | null} */
  fork() {
    return this.summary().fork;
  }

  /** The journal's entry of that place, from 0, as the bytes of its vertex. Throws Nothing. @param {number} place */
  entry(place) {
    return this.bytes(SHORT, (room, buf, size) => {
      const length = room.take(8);
      return [this.exports.hw_journal(this.handle, BigInt(place), buf, size, BigInt(length)), () => room.count(length)];
    });
  }

  /** The journal from that place on. @param {number} place @returns {Generator<Uint8Array>} */
  *journalFrom(place) {
    for (const end = this.summary().journal; place < end; place++) yield this.entry(place);
  }

  /** What the node observes of the validator. Throws OutOfRange. @param {number} validator @returns {Observation} */
  observation(validator) {
    return this.call("hw_observation", OBSERVED, () => [validator], observationAt);
  }

  /** The faulty validators in rising order. @returns {number[]} */
  faulty() {
    return this.call("hw_faulty", 8, (room) => {
      this.list = room.take(4 * this.validators);
      return [BigInt(this.list), BigInt(this.validators)];
    }, (room, at) => Array.from({ length: room.count(at) }, (_, place) => room.u32(this.list + 4 * place)));
  }

  /** What the journal's unit of this digest is, or null. @param {string} unit @returns {Unit | null} */
  unit(unit) {
    const bytes = digestBytes(unit);
    return this.facts("hw_unit", (room) => [BigInt(room.put(bytes))]);
  }

  /** What the unit of this vertex says, or null where it is none. Throws BadBytes. @param {Uint8Array} vertex */
  readUnit(vertex) {
    return this.facts("hw_spelled_unit", (room) => [BigInt(room.put(vertex)), BigInt(vertex.length)]);
  }

  facts(name, words) {
    if (this.handle === null) throw errorOf(4);
    return this.library.within((room) => {
      const facts = room.take(FACTS), list = room.take(OBSERVED * this.validators), value = room.take(VALUE), view = room.view;
      for (let place = 0; place < this.validators; place++) view.setUint32(list + OBSERVED * place, NO_SLOT, true);
      const rest = [facts, list, this.validators, value, VALUE].map(BigInt);
      const status = this.exports[name](this.handle, ...words(room), ...rest);
      if (status === 2) return null;
      if (status) throw errorOf(status);
      return unitAt(room, facts, list, this.validators, value);
    });
  }

  /** What became of the unit of this digest. @param {string} unit @returns {Place} */
  place(unit) {
    const bytes = digestBytes(unit);
    return this.call("hw_place", 8, (room) => [BigInt(room.put(bytes))], (room, at) => {
      const kind = ["unknown", "settled", "parked", "dropped"][room.u32(at)];
      return kind === "unknown" ? { kind } : { kind, number: room.u32(at + 4) };
    });
  }

  /** The final block of that place, or null where there are fewer. @param {number} index @returns {Decision | null} */
  decision(index) {
    return this.orNull(() => this.call("hw_decision", 64, () => [BigInt(index)], (room, at) => ({
      block: room.digest(at), height: room.count(at + 32), quorum: room.u64(at + 40), at: room.count(at + 48), level: room.u32(at + 56),
    })));
  }

  orNull(call) {
    try {
      return call();
    } catch (error) {
      if (error instanceof Nothing) return null;
      throw error;
    }
  }

  /** The final blocks from that place on. @param {number} index @returns {Generator<Decision>} */
  *decisionsFrom(index) {
    for (let found = this.decision(index); found; found = this.decision(++index)) yield found;
  }

  /** The final blocks. @returns {Decision[]} */
  decisions() {
    return [...this.decisionsFrom(0)];
  }

  /** The first needs that parked units miss, at most so many; 64 are enough. @param {number} most @returns {Need[]} */
  unmet(most) {
    return this.call("hw_unmet", 8, (room) => {
      this.list = room.take(NEED * most);
      return [BigInt(this.list), BigInt(most)];
    }, (room, at) => Array.from({ length: room.count(at) }, (_, place) => needAt(room, this.list + NEED * place)));
  }

  /** The vertices that this node has for a peer with that need. @param {Need} need @returns {Uint8Array[]} */
  forNeed(need) {
    const found = [];
    const kind = { unit: 0, evidence: 1, endorsed: 2 }[need.kind], digest = need.digest ? digestBytes(need.digest) : new Uint8Array(32);
    const next = () => this.bytes(SHORT, (room, buf, size) => {
      const at = room.take(NEED), length = room.take(8);
      room.view.setUint32(at, kind, true);
      room.view.setUint32(at + 4, need.validator ?? 0, true);
      new Uint8Array(this.exports.memory.buffer, at + 8, 32).set(digest);
      const words = [BigInt(at), BigInt(found.length), buf, size, BigInt(length)];
      return [this.exports.hw_for_need(this.handle, ...words), () => room.count(length)];
    });
    for (let vertex = this.orNull(next); vertex; vertex = this.orNull(next)) found.push(vertex);
    return found;
  }

  /**
   * What the validator has to make at this moment, in milliseconds, and until when that stays so while nothing is
   * delivered. Throws OutOfRange.
   * @param {number} validator @param {bigint} now @returns {Due}
   */
  due(validator, now) {
    const tasks = ["propose", "confirm", "witness", null];
    const waits = [null, "it is faulty", "its last unit", "the end is reached", "the leader's block", "anything to cite"];
    return this.call("hw_due", 64, () => [validator, BigInt(now)], (room, at) => ({
      make: tasks[room.u32(at)], wait: waits[room.u32(at + 4)], leader: room.u32(at + 8), round: room.u64(at + 16),
      parent: room.u32(at + 12) === 1 ? room.digest(at + 32) : null, next: room.u64(at + 24),
    }));
  }

  /**
   * The unit that the validator may make at this moment, in milliseconds, with this value for a proposal, or null. The
   * node stays as it is: the host signs by `library.signed`, keeps the vertex, delivers it, sends it. Throws OutOfRange.
   * @param {number} validator @param {bigint} now @param {Uint8Array} value @returns {Plan | null}
   */
  nextUnit(validator, now, value) {
    let kind, digest;
    const unit = this.orNull(() => this.bytes(SHORT + value.length, (room, buf, size) => {
      const planned = room.take(48), at = room.put(value);
      const words = [BigInt(now), BigInt(at), BigInt(value.length), BigInt(planned), buf, size];
      return [this.exports.hw_next_unit(this.handle, validator, ...words), () => {
        kind = ["propose", "confirm", "witness"][room.u32(planned)];
        digest = room.digest(planned + 16);
        return room.count(planned + 8);
      }];
    }));
    return unit && { kind, digest, unit };
  }

  /**
   * What this node's journal and another's say of each other, and that as the program prints it. Throws OtherInstance.
   * @param {Core} other @returns {{verdict: Verdict, text: string}}
   */
  audit(other) {
    if (other === this) {
      const common = this.summary().decided;
      return { verdict: { kind: "agree", common }, text: `agree ${common}\n` };
    }
    if (other.handle === null) throw errorOf(4);
    let verdict;
    const text = this.bytes(SHORT + 160 * this.validators, (room, buf, size) => {
      const at = room.take(104);
      return [this.exports.hw_audit(this.handle, other.handle, BigInt(at), buf, size), () => {
        verdict = verdictAt(room, at);
        return room.count(at + 8);
      }];
    });
    return { verdict, text: new TextDecoder().decode(text) };
  }

  /**
   * The certificate of the final block of that place, or null where it doesn't stand now. Throws OutOfRange, TooLong.
   * @param {number} index @returns {Certificate | null}
   */
  certificate(index) {
    const bytes = this.orNull(() => this.bytes(1 << 16, (room, buf, size) => {
      const length = room.take(8);
      return [this.exports.hw_certificate(this.handle, BigInt(index), buf, size, BigInt(length)), () => room.count(length)];
    }));
    return bytes && new Certificate(this.library, bytes);
  }
}

function verdictAt(room, at) {
  const kind = room.u32(at), height = room.count(at + 16);
  if (kind === 0) return { kind: "agree", common: height };
  if (kind === 2) return { kind: "clash" };
  const [left, right] = [room.digest(at + 40), room.digest(at + 72)];
  return { kind: "conflict", height, left, right, culprits: room.count(at + 24), weight: room.u64(at + 32) };
}

/** A block, and vertices that make it stand, as bytes. */
export class Certificate {
  /** @param {Library} library @param {Uint8Array} bytes */
  constructor(library, bytes) {
    this.library = library;
    this.bytes = bytes;
  }

  /** Who signed what, vertex by vertex. Throws BadCertificate. @returns {Signatures[]} */
  signatures() {
    // The shortest vertex, an endorsement, has 69 bytes.
    const most = Math.floor(this.bytes.length / 69) + 1;
    return this.library.within((room) => {
      const at = room.put(this.bytes), list = room.take(SIGNATURES * most), count = room.take(8), answer = room.take(ANSWER);
      const words = [at, this.bytes.length, list, most, count, answer].map(BigInt);
      const status = this.library.exports.hw_certified(...words);
      if (status) throw errorOf(status, room.answer(answer));
      return Array.from({ length: room.count(count) }, (_, place) => signaturesAt(room, list + SIGNATURES * place));
    });
  }

  /**
   * What it is answered with these verdicts on its vertices, one for each. Who knows which network he means compares
   * the instance with that network's. Throws BadCertificate, OutOfRange.
   * @param {boolean[]} verdicts @returns {Judgement}
   */
  check(verdicts) {
    return this.library.within((room) => {
      const at = room.put(this.bytes), told = room.take(4 * verdicts.length), judged = room.take(112), view = room.view;
      const value = room.take(VALUE), answer = room.take(ANSWER);
      verdicts.forEach((it, place) => view.setUint32(told + 4 * place, Number(it), true));
      const words = [at, this.bytes.length, told, verdicts.length, judged, value, VALUE, answer].map(BigInt);
      const status = this.library.exports.hw_check(...words);
      if (status) throw errorOf(status, room.answer(answer));
      return judgementAt(room, judged, value);
    });
  }
}

function judgementAt(room, at, value) {
  const kind = room.u32(at), status = room.u32(at + 4);
  if (kind === 1) return { kind: "config", error: errorOf(status) };
  if (kind === 2) return { kind: "refused", vertex: room.u32(at + 8), error: errorOf(status) };
  if (kind === 3) return { kind: "exceeded", weight: room.u64(at + 16) };
  if (kind === 4) return { kind: "unstood" };
  return {
    kind: "yes", block: room.digest(at + 48), instance: room.digest(at + 80), total: room.u64(at + 40), height: room.count(at + 24),
    value: room.bytes(value, room.count(at + 32)),
  };
}

/**
 * The library of a module's bytes.
 * @param {BufferSource} bytes @returns {Promise<Library>}
 */
export async function load(bytes) {
  const { instance } = await WebAssembly.instantiate(bytes, {});
  return new Library(instance.exports);
}
