// Each call, once on its way and once beside it.
import assert from "node:assert/strict";
import { readFileSync } from "node:fs";
import { test } from "node:test";
import * as highway from "../highway.js";
import { library, shipped, skip } from "./module.js";

const SETTINGS = { weights: [1n, 1n, 1n], leaders: [0], minExponent: 2, maxExponent: 10 };
const value = new TextEncoder().encode("value"), signature = (me) => new Uint8Array(32).fill(me);

async function network() {
  const hw = await library(), config = hw.config(SETTINGS);
  return { hw, config, cores: [0, 1, 2].map(() => hw.core(config)) };
}

// Each validator steps until this moment, and all hear all.
function run(hw, cores, until) {
  const sent = [];
  const step = (me, now) => {
    const plan = cores[me].nextUnit(me, now, value);
    if (!plan) return;
    const vertex = hw.signed(plan.unit, signature(me));
    for (const core of cores) core.deliver(vertex, true);
    sent.push(vertex);
  };
  for (let now = 0n; now < until; now++) [0, 1, 2].forEach((me) => step(me, now));
  return sent;
}

test("each status of the header has an error of its own", () => {
  const header = readFileSync(new URL("../../c/highway.h", import.meta.url), "utf8");
  const statuses = [...header.matchAll(/^  (HW_\w+) = (\w+),?/gm)].map(([, name, number]) => [name, Number(number)]);
  assert.equal(statuses.length, 20);
  for (const [name, number] of statuses) {
    // The header alone answers that a handle is busy.
    if (name === "HW_OK" || name === "HW_FULL" || name === "HW_BUSY") continue;
    const status = name === "HW_BAD_CONFIG" || name === "HW_LOCAL_RULE" ? number + 1 : number;
    assert.notEqual(highway.errorOf(status).constructor, highway.HighwayError, name);
  }
  assert.deepEqual([0x104, 0x209, 0x313, 0x413, 0x504, 0x514, 0x524].map((it) => highway.errorOf(it).name),
    ["BadBytes", "BadConfig", "BadPair", "LocalRule", "BadCertificate", "BadCertificate", "BadCertificate"]);
});

test("validators make blocks final", { skip }, async () => {
  const { hw, cores } = await network(), sent = run(hw, cores, 64n), summary = cores[0].summary();
  assert(summary.decided > 0);
  assert.equal(summary.journal, sent.length);
  assert.deepEqual(cores[1].summary(), summary);
  const first = cores[0].decision(0);
  assert.deepEqual([first.height, first.level], [0, 1]);
  assert.equal(cores[2].place(first.block).kind, "settled");
  assert.equal(cores[2].place("00".repeat(32)).kind, "unknown");
  assert.equal(cores[2].observation(1).kind, "correct");
  assert.throws(() => cores[0].observation(3), highway.OutOfRange);
  assert.throws(() => cores[0].nextUnit(3, 0n, value), highway.OutOfRange);
  assert.throws(() => cores[0].nextUnit(0, 1n << 63n, value), highway.OutOfRange);
  assert.throws(() => cores[0].nextUnit(0, 0n, new Uint8Array(4097)), highway.OutOfRange);
  assert.equal(cores[0].decision(summary.decided), null);
  assert.throws(() => cores[0].entry(summary.journal), highway.Nothing);
  assert.equal(hw.version(), 0x000200);
});

test("what is due is what a plan is made for", { skip }, async () => {
  const { cores: [core] } = await network();
  for (let now = 0n; now < 32n; now++) for (const me of [0, 1, 2]) {
    const due = core.due(me, now), plan = core.nextUnit(me, now, value);
    assert.equal(due.make, plan ? plan.kind : null);
    assert.deepEqual([due.wait === null, due.next > now, due.parent], [plan !== null, true, null]);
  }
  assert.throws(() => core.due(3, 0n), highway.OutOfRange);
});

test("a unit is told", { skip }, async () => {
  const { hw, cores } = await network(), sent = run(hw, cores, 32n), { block } = cores[0].decision(0);
  const unit = cores[0].unit(block);
  assert.deepEqual([unit.state, unit.vote, unit.parent, unit.height], ["settled", block, null, 0]);
  assert.deepEqual([unit.value, unit.panorama.length, unit.digest], [value, 3, block]);
  assert.equal(cores[0].unit("00".repeat(32)), null);
  assert.equal(cores[0].readUnit(sent[0]).state, "unknown");
  assert.equal(cores[0].readUnit(hw.endorsement(0, block, signature(0))), null);
  assert.throws(() => cores[0].readUnit(Uint8Array.of(9)), highway.BadBytes);
  const [read] = highway.readVertex(sent[0]).units;
  assert.equal(hw.sha256(read.spelled), hw.signatures(sent[0]).signed[0].unit);
});

test("what is missing is asked for", { skip }, async () => {
  const { hw, config, cores } = await network(), sent = run(hw, cores, 32n), late = hw.core(config);
  assert.equal(late.deliver(sent.at(-1), true).kind, "parked");
  assert.equal(late.fork(), null);
  for (let needs = late.unmet(64); needs.length; needs = late.unmet(64)) {
    for (const vertex of needs.flatMap((need) => cores[0].forNeed(need))) late.deliver(vertex, true);
  }
  assert.equal(late.fork(), cores[0].fork());
  assert.deepEqual(late.forNeed({ kind: "evidence", validator: 0 }), []);
});

test("who equivocates is known, and the pair is had", { skip }, async () => {
  const { hw, cores: [core] } = await network();
  const made = ["one", "other"].map((said) => hw.signed(core.nextUnit(0, 0n, new TextEncoder().encode(said)).unit, signature(0)));
  for (const vertex of made) core.deliver(vertex, true);
  assert.deepEqual(core.faulty(), [0]);
  const [pair] = core.forNeed({ kind: "evidence", validator: 0 });
  const { kind, signed } = hw.signatures(pair);
  assert.deepEqual([kind, signed.map((it) => it.validator)], ["evidence", [0, 0]]);
});

test("a block is certified", { skip }, async () => {
  const { hw, cores, config } = await network();
  run(hw, cores, 32n);
  const { block } = cores[0].decision(0), certificate = cores[0].certificate(0), signed = certificate.signatures();
  assert(signed.every((it) => it.signed.every((one) => one.signature[0] === one.validator)));
  const yes = certificate.check(signed.map(() => true));
  assert.deepEqual(yes, { kind: "yes", block, instance: hw.sha256(config), total: 3n, height: 0, value });
  const refused = certificate.check(signed.map((_, place) => place > 0));
  assert.deepEqual([refused.kind, refused.vertex, refused.error.constructor], ["refused", 0, highway.BadSignature]);
  assert.throws(() => certificate.check([]), highway.OutOfRange);
  assert.throws(() => cores[0].certificate(2 ** 40), highway.OutOfRange);
  const none = hw.certificate(new TextEncoder().encode("HWCX"));
  assert.throws(() => none.check([]), { name: "BadCertificate", fault: "bad magic", part: "certificate" });
  assert.throws(() => none.signatures(), highway.BadCertificate);
});

test("two nodes are audited", { skip }, async () => {
  const left = await network(), right = { cores: [0, 1, 2].map(() => left.hw.core(left.config)) };
  run(left.hw, left.cores, 32n);
  run(left.hw, right.cores, 16n);
  assert.equal(left.cores[0].audit(right.cores[0]).verdict.kind, "agree");
  assert.deepEqual(left.cores[0].audit(left.cores[0]), left.cores[0].audit(left.cores[1]));
  const other = left.hw.core(left.hw.config({ weights: [1n] }));
  assert.throws(() => left.cores[0].audit(other), highway.OtherInstance);
  const [one, two] = ["signed.hwlg", "signed-other.hwlg"].map((name) => {
    const log = highway.readLog(left.hw, shipped(name)), core = left.hw.core(log.config);
    for (const { vertex, verdict } of log.entries) core.deliver(vertex, verdict);
    return core;
  });
  const { verdict, text } = one.audit(two);
  assert.deepEqual([verdict.kind, verdict.height, verdict.culprits, verdict.weight], ["conflict", 0, 1, 1n]);
  assert.match(text, /^conflict height 0 left \w{64} right \w{64}\nculprit 1 \w{64} \w{64}\nweight 1 above 0\n$/);
});

test("bytes and configurations are judged", { skip }, async () => {
  const { hw, cores } = await network();
  assert.throws(() => hw.core(new Uint8Array(0)), { name: "BadBytes", fault: "truncated", at: 0 });
  assert.throws(() => hw.config({ weights: [1n, 0n] }), { name: "BadConfig", limit: "zero weight", at: 1 });
  assert.throws(() => hw.config({ weights: new Array(1025).fill(1n) }), highway.TooLong);
  assert.equal(hw.config({ ...SETTINGS, end: 7n })[0], 2);
  const read = highway.readConfig(hw.config({ ...SETTINGS, faultTolerance: 1n, end: 7n }));
  assert.deepEqual([read.weights, read.faultTolerance, read.end, read.leaders], [[1n, 1n, 1n], 1n, 7n, [0]]);
  const [first] = run(hw, cores, 4n);
  assert.deepEqual(cores[0].deliver(first, true), { kind: "repeat" });
  assert.throws(() => hw.signatures(first.slice(0, 20)), { name: "BadBytes", fault: "truncated" });
  assert.throws(() => cores[0].deliver(first.slice(0, 20), true), (it) => it.isFaultOfSender() && it.error.at === 1);
  assert.throws(() => hw.signed(first, new Uint8Array(31)), highway.OutOfRange);
  const [outside] = cores[0].deliverAll(first, [{ start: 3, end: 0, verdict: true }]);
  assert(outside.error instanceof highway.OutOfRange && !outside.isFaultOfSender());
});

test("a node that was closed answers nothing, and another goes on", { skip }, async () => {
  const { hw, cores } = await network();
  cores[0].close();
  cores[0].close();
  for (const call of [(it) => it.summary(), (it) => it.deliver(value, true), (it) => it.entry(0), (it) => it.audit(cores[1])]) {
    assert.throws(() => call(cores[0]), highway.Closed);
  }
  assert.throws(() => cores[1].audit(cores[0]), highway.Closed);
  assert.equal(cores[1].summary().journal, 0);
});

test("without memory nothing changes, and the node stays", { skip }, async () => {
  const { hw, cores: [core] } = await network();
  const held = run(hw, [core, core, core].slice(0, 1).concat([hw.core(hw.config(SETTINGS)), hw.core(hw.config(SETTINGS))]), 64n);
  const before = core.summary();
  hw.limitMemory(hw.memorySize());
  assert.throws(() => hw.sha256(new Uint8Array(64 << 20)), highway.OutOfMemory);
  assert.throws(() => core.unmet(2 ** 24), highway.OutOfMemory);
  let refused = 0;
  const rich = { ...SETTINGS, maxRecords: 131072 }, late = hw.core(hw.config(rich));
  const filler = new Uint8Array(4096), taken = [];
  for (let at = hw.exports.hw_take(4000n); at; at = hw.exports.hw_take(4000n)) taken.push(at);
  for (let size = 2048n; size >= 16n; size /= 2n) for (let at = hw.exports.hw_take(size); at; at = hw.exports.hw_take(size)) taken.push(at);
  try {
    core.nextUnit(0, 4096n, filler);
  } catch (error) {
    refused += Number(error instanceof highway.OutOfMemory);
  }
  for (const at of taken) hw.exports.hw_give(at);
  assert.equal(refused, 1);
  assert.deepEqual(core.summary(), before);
  assert.equal(core.summary().journal, held.length);
  hw.limitMemory(0);
  assert.equal(hw.sha256(new Uint8Array(64 << 20)).length, 64);
  late.close();
});

test("a log is read by pieces of any size, and its faults have their places", { skip }, async () => {
  const hw = await library(), bytes = shipped("both.hwlg"), whole = highway.readLog(hw, bytes);
  for (const size of [1, 7, 100]) {
    const reader = new highway.LogReader(hw), found = [];
    for (let at = 0; at <= bytes.length; at += size) {
      reader.feed(bytes.slice(at, at + size));
      if (at + size > bytes.length) reader.end();
      for (let batch = reader.take(3); batch.vertices.length; batch = reader.take(3)) {
        for (const { start, end, verdict, at } of batch.vertices) found.push({ at, verdict, vertex: batch.bytes.slice(start, end) });
      }
    }
    assert.deepEqual(found, whole.entries);
  }
  const changed = (at, byte) => Object.assign(bytes.slice(), { [at]: byte }), second = whole.entries[1].at;
  const faults = [
    [bytes.slice(0, 3), "bad magic"], [changed(0, 0), "bad magic"], [bytes.slice(0, 4), "torn at 4"], [changed(4, 3), "version 3"],
    [bytes.slice(0, 6), "torn at 5"], [changed(5, 255), "too long at 5"], [bytes.slice(0, 20), "torn at 9"],
    [bytes.slice(0, second + 3), `torn at ${second}`], [changed(second, 2), `bad event at ${second}`],
    [changed(second + 1, 2), `bad verdict at ${second}`], [changed(second + 2, 255), `too long at ${second}`],
  ];
  for (const [log, said] of faults) assert.throws(() => highway.readLog(hw, log), { name: "LogError", said });
});
