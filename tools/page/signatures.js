// Who signed what, by keys: those of a test network, or public keys with a side file. The core hashes; Ed25519 is the
// browser's.

import { LogError, hex, unhex } from "../../bindings/js/highway.js";

export { isKeys, isSigned, joinBytes, schemeOf };

const encoder = new TextEncoder();

const isKeys = (bytes) => bytes.length >= 65 && /^[0-9a-f]{64}\n/.test(String.fromCharCode(...bytes.subarray(0, 65)));

function readKeys(bytes, count) {
  const isWanted = (byte, at) => (at % 65 === 64 ? byte === 10 : (byte >= 48 && byte <= 57) || (byte >= 97 && byte <= 102));
  const wrong = bytes.findIndex((byte, at) => at >= 65 * count || !isWanted(byte, at));
  if (wrong >= 0) throw new LogError(`keys at ${wrong}`);
  if (bytes.length < 65 * count) throw new LogError(`keys at ${bytes.length}`);
  const text = new TextDecoder().decode(bytes);
  return Array.from({ length: count }, (_, who) => unhex(text.slice(65 * who, 65 * who + 64)));
}

function readSideFile(library, bytes) {
  const found = new Map(), view = new DataView(bytes.buffer, bytes.byteOffset);
  for (let at = 5; at < bytes.length; ) {
    const length = at + 2 <= bytes.length ? view.getUint16(at) : 1;
    if (length < 1 || length > 4096) throw new LogError(`signature length at ${at}`);
    if (at + 2 + length > bytes.length) throw new LogError(`torn at ${at}`);
    const signature = bytes.slice(at + 2, (at += 2 + length));
    found.set(library.sha256(signature), signature);
  }
  return found;
}

function joinBytes(...parts) {
  const whole = new Uint8Array(parts.reduce((sum, part) => sum + part.length, 0));
  parts.reduce((at, part) => (whole.set(part, at), at + part.length), 0);
  return whole;
}

// The keys of a test network: who has them can sign for all.
class StandIn {
  constructor(library, bytes, count) {
    this.library = library;
    this.keys = readKeys(bytes, count);
    this.what = "the keys of a test network";
  }

  async isRight({ validator, unit, signature }, isEndorsement) {
    if (validator >= this.keys.length) return false;
    const who = new Uint8Array(4);
    new DataView(who.buffer).setUint32(0, validator);
    const signed = isEndorsement ? this.library.sha256(joinBytes(encoder.encode("endorse"), unhex(unit), who)) : unit;
    return this.library.sha256(joinBytes(this.keys[validator], unhex(signed))) === hex(signature);
  }
}

// Ed25519 keys, with the signatures of a side file by their digests. The browser judges them.
class PublicKeys {
  static async of(library, bytes, side, count) {
    const made = new PublicKeys();
    made.signatures = readSideFile(library, side);
    made.what = "public keys, and the signatures of the side file";
    made.keys = await Promise.all(readKeys(bytes, count).map((key) => crypto.subtle.importKey("raw", key, "Ed25519", false, ["verify"])));
    return made;
  }

  async isRight({ validator, unit, signature }, isEndorsement) {
    const found = this.signatures.get(hex(signature));
    if (validator >= this.keys.length || !found) return false;
    const message = joinBytes(encoder.encode(isEndorsement ? "highway endorsement\0" : "highway unit\0"), unhex(unit));
    return crypto.subtle.verify("Ed25519", this.keys[validator], found, message);
  }
}

// What judges signatures by the files that are given, or null.
async function schemeOf(library, { keys, side }, count) {
  if (!keys) return null;
  return side ? PublicKeys.of(library, keys, side, count) : new StandIn(library, keys, count);
}

async function isSigned(signatures, scheme) {
  for (const one of signatures.signed) if (!(await scheme.isRight(one, signatures.kind === "endorsement"))) return false;
  return true;
}
