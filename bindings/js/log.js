/**
 * Logs of both versions, read by pieces, and what vertices and configurations say: docs/FORMATS.md in JavaScript.
 *
 * The library judges; this hands it whole vertices. A vertex of a log of version 2 that is in the compact form is
 * spelled in full here.
 */

const MAGIC = [0x48, 0x57, 0x4c, 0x47], MOST = 1 << 20, VALIDATORS = 1024;

/** A log's bytes are none: `said` is why, in the program's words. */
export class LogError extends Error {
  /** @param {string} said */
  constructor(said) {
    super(said);
    this.name = "LogError";
    this.said = said;
  }
}

/** The first field of bytes that is refused. */
export class CodecError extends Error {
  /** @param {string} fault @param {number} at */
  constructor(fault, at) {
    super(`${fault} at ${at}`);
    this.name = "CodecError";
    Object.assign(this, { fault, at });
  }
}

// Bytes that are read from left to right.
class Cursor {
  constructor(bytes) {
    this.bytes = bytes;
    this.view = new DataView(bytes.buffer, bytes.byteOffset, bytes.length);
    this.at = 0;
  }

  take(size) {
    if (this.bytes.length - this.at < size) throw new CodecError("truncated", this.at);
    this.at += size;
    return this.bytes.subarray(this.at - size, this.at);
  }

  u8() {
    return this.take(1)[0];
  }

  u32() {
    this.take(4);
    return this.view.getUint32(this.at - 4);
  }

  u64() {
    this.take(8);
    return this.view.getBigUint64(this.at - 8);
  }

  tag(most) {
    const at = this.at, tag = this.u8();
    if (tag > most) throw new CodecError("bad tag", at);
    return tag;
  }

  count(most) {
    const at = this.at, count = this.u32();
    if (count > most) throw new CodecError("too long", at);
    return count;
  }

  time() {
    const at = this.at, time = this.u64();
    if (time >> 63n) throw new CodecError("out of range", at);
    return time;
  }

  list(count, read) {
    const found = [];
    while (count-- > 0) found.push(read());
    return found;
  }

  // The bytes of an observation: one, or 33.
  observation() {
    const at = this.at;
    if (this.tag(2) === 1) this.take(32);
    return this.bytes.subarray(at, this.at);
  }

  // Value and endorsed units, as they stand at the end of a unit.
  tail() {
    const at = this.at, value = this.tag(1) ? this.take(this.count(4096)) : null;
    const endorsed = this.list(this.count(256), () => this.take(32));
    return { value, endorsed, tail: this.bytes.subarray(at, this.at) };
  }

  finish() {
    if (this.at !== this.bytes.length) throw new CodecError("trailing", this.at);
  }
}

function readUnit(cursor) {
  const begin = cursor.at, instance = cursor.take(32), creator = cursor.u32(), seq = cursor.u64(), time = cursor.time();
  const exponent = cursor.u8(), panorama = cursor.list(cursor.count(VALIDATORS), () => cursor.observation());
  const rest = cursor.tail();
  const spelled = cursor.bytes.subarray(begin, cursor.at);
  return { instance, creator, seq, time, exponent, panorama, ...rest, spelled, signature: cursor.take(32) };
}

/**
 * @typedef {{instance: Uint8Array, creator: number, seq: bigint, time: bigint, exponent: number,
 *   panorama: Uint8Array[], value: Uint8Array | null, endorsed: Uint8Array[], spelled: Uint8Array,
 *   signature: Uint8Array}} SignedUnit An observation is its bytes: 0, or 1 and a digest, or 2.
 */

/**
 * What a vertex of kinds 1 to 3 says. Throws CodecError.
 * @param {Uint8Array} bytes
 * @returns {{kind: "unit" | "evidence", units: SignedUnit[]} | {kind: "endorsement", unit: Uint8Array, endorser: number}}
 */
export function readVertex(bytes) {
  const cursor = new Cursor(bytes), kind = cursor.u8();
  let found;
  if (kind === 1) found = { kind: "unit", units: [readUnit(cursor)] };
  else if (kind === 2) found = { kind: "evidence", units: [readUnit(cursor), readUnit(cursor)] };
  else if (kind === 3) found = { kind: "endorsement", unit: cursor.take(32), endorser: cursor.u32(), signature: cursor.take(32) };
  else throw new CodecError("bad tag", 0);
  cursor.finish();
  return found;
}

/**
 * What the bytes of a configuration say; its limits are the library's to judge. Throws CodecError.
 * @param {Uint8Array} bytes
 * @returns {{weights: bigint[], total: bigint, faultTolerance: bigint, levels: number, minExponent: number,
 *   maxExponent: number, leaders: number[] | Uint8Array, maxRecords: number, maxParked: number, end: bigint | null}}
 */
export function readConfig(bytes) {
  const cursor = new Cursor(bytes), version = cursor.u8();
  if (version !== 1 && version !== 2) throw new CodecError("bad tag", 0);
  const weights = cursor.list(cursor.count(VALIDATORS), () => cursor.u64()), faultTolerance = cursor.u64();
  const [levels, minExponent, maxExponent] = [cursor.u8(), cursor.u8(), cursor.u8()];
  const leaders = cursor.tag(1) ? cursor.take(32) : cursor.list(cursor.count(4096), () => cursor.u32());
  const maxRecords = cursor.u32(), maxParked = cursor.u32(), end = version === 2 ? cursor.u64() : null;
  cursor.finish();
  const total = weights.reduce((sum, weight) => sum + weight, 0n);
  return { weights, total, faultTolerance, levels, minExponent, maxExponent, leaders, maxRecords, maxParked, end };
}

/**
 * The configuration that the bytes of a certificate begin with, or null.
 * @param {Uint8Array} bytes @returns {Uint8Array | null}
 */
export function certifiedConfig(bytes) {
  if (bytes.length < 9 || String.fromCharCode(...bytes.subarray(0, 4)) !== "HWCT") return null;
  const length = new DataView(bytes.buffer, bytes.byteOffset).getUint32(5);
  return bytes.length >= 9 + length ? bytes.subarray(9, 9 + length) : null;
}

function joined(parts) {
  const whole = new Uint8Array(parts.reduce((sum, part) => sum + part.length, 0));
  let at = 0;
  for (const part of parts) {
    whole.set(part, at);
    at += part.length;
  }
  return whole;
}

function isEqual(left, right) {
  return left.length === right.length && left.every((byte, place) => byte === right[place]);
}

// The last unit of each validator in a log of version 2, and what its compact form says.
class Lasts {
  constructor(library, validators) {
    Object.assign(this, { library, validators, units: new Map() });
  }

  // The vertex in full. What isn't a unit stays as it is, and the library reads it.
  full(bytes) {
    if (bytes[0] !== 1 && bytes[0] !== 4) return bytes;
    const unit = bytes[0] === 4 ? this.compact(bytes) : readVertex(bytes).units[0];
    if (bytes[0] === 1 && this.isDue(unit)) throw new CodecError("bad tag", 0);
    if (unit.creator < this.validators) {
      const digest = this.library.sha256(unit.spelled);
      unit.name = Uint8Array.from({ length: 33 }, (_, at) => (at ? parseInt(digest.slice(2 * at - 2, 2 * at), 16) : 1));
      this.units.set(unit.creator, unit);
    }
    return bytes[0] === 1 ? bytes : joined([[1], unit.spelled, unit.signature]);
  }

  isDue(unit) {
    const last = this.units.get(unit.creator);
    if (!last || !isEqual(last.instance, unit.instance) || last.panorama.length !== unit.panorama.length) return false;
    return unit.creator < unit.panorama.length && isEqual(unit.panorama[unit.creator], last.name);
  }

  compact(bytes) {
    const cursor = new Cursor(bytes);
    cursor.u8();
    const at = cursor.at, creator = cursor.u32(), last = this.units.get(creator);
    if (!last || creator >= last.panorama.length) throw new CodecError("out of range", at);
    const head = cursor.at, seq = cursor.u64(), time = cursor.time(), exponent = cursor.u8(), fixed = bytes.subarray(head, cursor.at);
    const panorama = this.changed(cursor, creator, last), { value, endorsed, tail } = cursor.tail();
    const signature = cursor.take(32);
    cursor.finish();
    const counts = new Uint8Array(8), view = new DataView(counts.buffer);
    view.setUint32(0, creator);
    view.setUint32(4, panorama.length);
    const spelled = joined([last.instance, counts.subarray(0, 4), fixed, counts.subarray(4), ...panorama, tail]);
    return { instance: last.instance, creator, seq, time, exponent, panorama, value, endorsed, spelled, signature };
  }

  changed(cursor, creator, last) {
    const panorama = [...last.panorama];
    for (let left = cursor.count(VALIDATORS), before = -1; left > 0; left--) {
      let at = cursor.at;
      const slot = cursor.u32();
      if (slot <= before || slot >= panorama.length || slot === creator) throw new CodecError("out of range", at);
      at = cursor.at;
      const seen = cursor.observation();
      if (isEqual(seen, panorama[slot])) throw new CodecError("out of range", at);
      panorama[slot] = seen;
      before = slot;
    }
    panorama[creator] = last.name;
    return panorama;
  }
}

/**
 * Reads a log as its bytes come: `feed` takes more, `end` says that no more come, `take` gives whole vertices.
 * `config` is null until its bytes are there.
 */
export class LogReader {
  /** @param {import("./highway.js").Library} library */
  constructor(library) {
    Object.assign(this, { library, config: null, version: null, held: new Uint8Array(0), at: 0, used: 0, isEnded: false, fault: null });
  }

  /** @param {Uint8Array} bytes */
  feed(bytes) {
    const rest = this.held.subarray(this.used);
    this.held = rest.length ? joined([rest, bytes]) : bytes;
    this.view = new DataView(this.held.buffer, this.held.byteOffset, this.held.length);
    this.at += this.used;
    this.used = 0;
  }

  end() {
    this.isEnded = true;
  }

  get left() {
    return this.held.length - this.used;
  }

  // Whether so many bytes are there; at the end of the file it is torn at the place.
  has(size, torn) {
    if (this.left >= size) return true;
    if (this.isEnded) throw new LogError(torn);
    return false;
  }

  /** Reads up to the configuration; true where it is there. Throws LogError. @returns {boolean} */
  head() {
    if (this.config) return true;
    const held = this.held, view = new DataView(held.buffer, held.byteOffset);
    if (MAGIC.some((byte, place) => place < held.length && held[place] !== byte)) throw new LogError("bad magic");
    if (!this.has(4, "bad magic") || !this.has(5, "torn at 4")) return false;
    if (held[4] !== 1 && held[4] !== 2) throw new LogError(`version ${held[4]}`);
    if (!this.has(9, "torn at 5")) return false;
    const length = view.getUint32(5);
    if (length > MOST) throw new LogError("too long at 5");
    if (!this.has(9 + length, "torn at 9")) return false;
    this.config = held.slice(9, 9 + length);
    this.version = held[4];
    this.used = 9 + length;
    return true;
  }

  // The place and length of the vertex at the front, or null where it isn't whole yet.
  next() {
    const at = this.at + this.used, held = this.held, from = this.used;
    if (!this.left || !this.has(6, `torn at ${at}`)) return null;
    if (held[from] !== 1) throw new LogError(`bad event at ${at}`);
    if (held[from + 1] > 1) throw new LogError(`bad verdict at ${at}`);
    const length = this.view.getUint32(from + 2);
    if (length > MOST) throw new LogError(`too long at ${at}`);
    if (!this.has(6 + length, `torn at ${at}`)) return null;
    return { at, start: from + 6, end: from + 6 + length, verdict: held[from + 1] === 1 };
  }

  noLasts() {
    try {
      return new Lasts(this.library, readConfig(this.config).weights.length);
    } catch (error) {
      throw error instanceof CodecError ? new LogError(`config ${error.message}`) : error;
    }
  }

  vertexAt({ at, start, end }) {
    try {
      return this.lasts.full(this.held.subarray(start, end));
    } catch (error) {
      throw error instanceof CodecError ? new LogError(`bad vertex at ${at}: ${error.message}`) : error;
    }
  }

  /**
   * Vertices that are whole by now, at most so many, as `deliverAll` takes them. With none left it answers an empty
   * list. The fault of an entry is thrown once those before it are taken.
   * @param {number} most
   * @returns {{bytes: Uint8Array, vertices: {start: number, end: number, verdict: boolean, at: number}[]}}
   */
  take(most) {
    if (this.fault) throw this.fault;
    const vertices = [], parts = [];
    try {
      if (!this.head()) return { bytes: this.held, vertices };
      if (this.version === 2) this.lasts ??= this.noLasts();
      for (let size = 0; vertices.length < most; ) {
        const found = this.next();
        if (!found) break;
        if (this.version === 2) {
          const full = this.vertexAt(found);
          parts.push(full);
          vertices.push({ ...found, start: size, end: (size += full.length) });
        } else {
          vertices.push(found);
        }
        this.used = found.end;
      }
    } catch (error) {
      if (!vertices.length) throw error;
      this.fault = error;
    }
    if (this.version === 2 || !vertices.length) return { bytes: joined(parts), vertices };
    const first = vertices[0].start, last = vertices[vertices.length - 1].end;
    for (const vertex of vertices) {
      vertex.start -= first;
      vertex.end -= first;
    }
    return { bytes: this.held.subarray(first, last), vertices };
  }
}

/**
 * A log whole, each vertex in full. Throws LogError.
 * @param {import("./highway.js").Library} library @param {Uint8Array} bytes
 * @returns {{version: number, config: Uint8Array, entries: {at: number, verdict: boolean, vertex: Uint8Array}[]}}
 */
export function readLog(library, bytes) {
  const reader = new LogReader(library), entries = [];
  reader.feed(bytes);
  reader.end();
  for (let batch = reader.take(256); batch.vertices.length; batch = reader.take(256)) {
    for (const { start, end, verdict, at } of batch.vertices) entries.push({ at, verdict, vertex: batch.bytes.slice(start, end) });
  }
  return { version: reader.version, config: reader.config, entries };
}
