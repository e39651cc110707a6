// The stored logs of the crate for Rust: each delivery and report is answered as an independent reference answers it.
import assert from "node:assert/strict";
import { test } from "node:test";
import { BadPair, BadSignature, Clash, LocalRule, ParkFull, RecordsFull, Refusal, readConfig, readLog } from "../highway.js";
import { library, skip, stored } from "./module.js";

function casesOf(logs, answers) {
  const bytes = stored(logs), view = new DataView(bytes.buffer), found = [];
  const texts = new TextDecoder().decode(stored(answers)).split(/^case .*\n/m).slice(1);
  for (let at = 0; at < bytes.length; ) {
    const length = view.getUint32(at);
    const lines = texts[found.length].trimEnd().split("\n").map((line) => line.replace(/^(dropped|refused local) (\d+) .*/, "$1 $2"));
    found.push([bytes.slice(at + 4, at + 4 + length), lines]);
    at += 4 + length;
  }
  assert.equal(found.length, texts.length);
  return found;
}

function refusedText(error) {
  if (error instanceof BadSignature) return "signature";
  if (error instanceof LocalRule) return `local ${error.rule}`;
  if (error instanceof BadPair) return `pair ${error.fault}`;
  if (error instanceof Clash) return "clash";
  if (error instanceof RecordsFull) return "records full";
  if (error instanceof ParkFull) return "parked full";
  throw error;
}

function told(answer) {
  if (answer instanceof Refusal) return `refused ${refusedText(answer.error)}`;
  return { admitted: `admitted ${answer.settled}`, parked: `parked ${answer.missing}`, dropped: `dropped ${answer.rule}`, repeat: "repeat" }[answer.kind];
}

function report(core, validators, refused, repeats) {
  const summary = core.summary();
  const faulty = Array.from({ length: validators }, (_, it) => it).filter((it) => core.observation(it).kind === "faulty");
  assert.deepEqual(core.faulty(), faulty);
  const lines = [`units ${summary.settled} parked ${summary.parked} dropped ${summary.dropped} refused ${refused} repeats ${repeats}`];
  lines.push(`faulty ${faulty.join(" ") || "-"}`, `fork ${summary.fork ?? "-"}`);
  for (const it of core.decisions()) lines.push(`final ${it.height} ${it.block} level ${it.level} quorum ${it.quorum} at ${it.at}`);
  if (summary.isExceeded) lines.push(`exceeded ${summary.faultyWeight}`);
  return lines;
}

function one(core, entry) {
  const before = core.summary();
  try {
    return core.deliver(entry.vertex, entry.verdict);
  } catch (refusal) {
    assert(refusal instanceof Refusal, refusal);
    assert.deepEqual(core.summary(), before);
    return refusal;
  }
}

function replayed(hw, log) {
  const core = hw.core(log.config), lines = [];
  let limit = null, refused = 0, repeats = 0;
  for (const entry of log.entries) {
    const answer = one(core, entry);
    const full = answer.error instanceof RecordsFull ? "records" : answer.error instanceof ParkFull ? "parked" : null;
    if (full) {
      assert(!answer.isFaultOfSender());
      limit ??= `limit ${full} at ${entry.at}`;
    }
    refused += Number(answer instanceof Refusal);
    repeats += Number(answer.kind === "repeat");
    lines.push(told(answer));
  }
  lines.push(...report(core, readConfig(log.config).weights.length, refused, repeats));
  return [core, limit ? [...lines, limit] : lines];
}

function atOnce(hw, log) {
  const core = hw.core(log.config), vertices = [], parts = [];
  let size = 0;
  for (const { vertex, verdict } of log.entries) {
    parts.push(...new TextEncoder().encode("between"), ...vertex);
    vertices.push({ start: size + 7, end: (size += 7 + vertex.length), verdict });
  }
  return [core, core.deliverAll(Uint8Array.from(parts), vertices).map(told)];
}

async function compare(logs, answers, count) {
  const hw = await library(), cases = casesOf(logs, answers);
  assert.equal(cases.length, count);
  for (const [bytes, lines] of cases) {
    const log = readLog(hw, bytes), [core, said] = replayed(hw, log);
    assert.deepEqual(said, lines);
    const again = hw.core(log.config);
    for (const vertex of core.journalFrom(0)) assert.notEqual(again.deliver(vertex, true).kind, "repeat");
    assert.deepEqual(again.summary(), core.summary());
    const [whole, answered] = atOnce(hw, log);
    assert.deepEqual(answered, lines.slice(0, answered.length));
    assert.deepEqual(whole.summary(), core.summary());
    for (const each of [core, again, whole]) each.close();
  }
  // What is closed is used again: 200 logs three times take no more than some of them at one time.
  assert(hw.memorySize() < 64 << 20, `${hw.memorySize()} bytes`);
}

test("logs are answered as the reference answers", { skip }, () => compare("logs.bin", "answers.txt", 200));
test("limits are answered as the reference answers", { skip }, () => compare("limits.bin", "limits.txt", 40));
