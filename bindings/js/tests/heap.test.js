// The allocator against a model: a million random calls. HIGHWAY_HEAP names it as a module of its own.
import assert from "node:assert/strict";
import { readFileSync } from "node:fs";
import { test } from "node:test";

const path = process.env.HIGHWAY_HEAP, skip = path ? false : "HIGHWAY_HEAP names no module";
const heap = async () => (await WebAssembly.instantiate(readFileSync(path), {})).instance.exports;

function randomFrom(seed) {
  let state = seed;
  return (below) => {
    state = (Math.imul(state, 1664525) + 1013904223) >>> 0;
    return Math.floor((state / 2 ** 32) * below);
  };
}

// Blocks that are held, each filled with a byte of its own. What lies in two of them would be overwritten by one.
class Model {
  constructor(exports, random) {
    Object.assign(this, { exports, random, held: [], used: 0, most: 0, stamp: 0 });
  }

  bytes(at, size) {
    return new Uint8Array(this.exports.memory.buffer, Number(at), size);
  }

  keep(at, size) {
    assert.notEqual(at, 0n);
    assert.equal(at % 16n, 0n);
    this.stamp = (this.stamp + 1) & 255;
    this.bytes(at, size).fill(this.stamp);
    this.held.push({ at, size, stamp: this.stamp });
    this.used += size;
    this.most = Math.max(this.most, this.used);
  }

  // A held block leaves the model, and has what was written.
  leave() {
    const place = this.random(this.held.length), block = this.held[place];
    this.held[place] = this.held[this.held.length - 1];
    this.held.pop();
    this.used -= block.size;
    assert(this.bytes(block.at, block.size).every((byte) => byte === block.stamp), "a block was written over");
    return block;
  }

  size() {
    return this.random(1 << (1 + this.random(this.random(50) ? 9 : 14)));
  }

  step() {
    const what = this.random(this.held.length > 400 ? 7 : 10), size = this.size();
    if (what >= 6 || !this.held.length) return this.keep(this.exports.hw_take(BigInt(size)), size);
    const block = this.leave();
    if (what >= 2) return this.exports.hw_give(block.at);
    const moved = this.exports.hw_resize(block.at, BigInt(block.size), BigInt(size)), kept = Math.min(block.size, size);
    assert(this.bytes(moved, kept).every((byte) => byte === block.stamp), "a change of size keeps the bytes");
    return this.keep(moved, size);
  }
}

test("a million random calls", { skip }, async () => {
  const exports = await heap(), model = new Model(exports, randomFrom(1));
  for (let step = 0; step < 1_000_000; step++) model.step();
  while (model.held.length) exports.hw_give(model.leave().at);
  const size = exports.memory.buffer.byteLength;
  assert(size < 8 * model.most + (2 << 20), `${size} bytes for ${model.most}`);
});

test("what can't be met is null, and changes nothing", { skip }, async () => {
  const exports = await heap(), model = new Model(exports, randomFrom(2));
  for (let step = 0; step < 1000; step++) model.step();
  exports.hw_heap_limit(BigInt(exports.memory.buffer.byteLength + (1 << 20)));
  for (const size of [2n ** 64n - 1n, 2n ** 64n - 16n, 2n ** 40n, 2n ** 39n, 2n ** 24n]) {
    assert.equal(exports.hw_take(size), 0n);
    const block = model.held[0];
    assert.equal(exports.hw_resize(block.at, BigInt(block.size), size), 0n);
  }
  for (let at = exports.hw_take(1000n); at; at = exports.hw_take(1000n)) assert.equal(at % 16n, 0n);
  while (model.held.length) exports.hw_give(model.leave().at);
  exports.hw_give(0n);
  assert.notEqual(exports.hw_take(1n), 0n);
});

test("arithmetic of 128 bits", { skip }, async () => {
  const exports = await heap(), random = randomFrom(3), all = (1n << 128n) - 1n;
  const number = () => {
    let made = 0n;
    for (let word = 0; word < 4; word++) made = (made << 32n) | BigInt(random(2 ** 32));
    return [made, made >> BigInt(random(128)), all, 1n << BigInt(random(128)), all >> BigInt(random(128))][random(5)];
  };
  const asked = (what, left, right) => {
    const words = [left >> 64n, left & (all >> 64n), right >> 64n, right & (all >> 64n)];
    const [low, high] = [0, 1].map((half) => BigInt.asUintN(64, exports.hw_wide(what, ...words, half)));
    return (high << 64n) | low;
  };
  for (let step = 0; step < 50_000; step++) {
    const left = number(), right = number(), by = BigInt(random(128));
    assert.equal(asked(0, left, right), (left * right) & all);
    assert.equal(asked(1, left, by), (left << by) & all);
    assert.equal(asked(2, left, by), left >> by);
    if (right) assert.equal(asked(3, left, right), left / right);
  }
});
