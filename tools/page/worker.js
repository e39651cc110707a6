// The page's work, beside the page: reads the files, asks the core, and sends back what it said. Nothing is judged here.

import { BadCertificate, LogError, certifiedConfig, hex, load, readConfig } from "../../bindings/js/highway.js";
import { factsOf, unitFacts, valueText } from "./core_facts.js";
import { Replay, certificateFaultText } from "./replay.js";
import { isKeys, isSigned, joinBytes, schemeOf } from "./signatures.js";

const LEAD = 12;
let library = null, logs = [], before = Promise.resolve();

// ---- two logs

// A unit of a culprit, from the log that has it.
function accused(digest) {
  const having = logs.filter((replay) => replay.core.unit(digest)), [first] = having;
  const [vertex] = first.core.forNeed({ kind: "unit", digest });
  const [{ signature }] = library.signatures(vertex).signed;
  return { ...unitFacts(first.core, digest), signature: hex(signature), names: having.map((replay) => replay.name), vertex };
}

function u32(number) {
  const bytes = new Uint8Array(4);
  new DataView(bytes.buffer).setUint32(0, number);
  return bytes;
}

// A log that has the pairs alone, for whoever wants to check them.
function evidenceOf(config, culprits) {
  const entries = culprits.map(({ units: [left, right] }) => {
    const vertex = joinBytes([2], left.vertex.subarray(1), right.vertex.subarray(1));
    return joinBytes([1, 1], u32(vertex.length), vertex);
  });
  return joinBytes(new TextEncoder().encode("HWLG"), [1], u32(config.length), config, ...entries);
}

// Why there is no audit, in the program's words: the left log's fault, another configuration, the right log's fault.
function noAudit([left, right]) {
  if (left.fault) return left.fault;
  if (right.config && hex(right.config) !== hex(left.config)) return `input ${right.name}: other config`;
  return right.fault;
}

function audit() {
  if (logs.length < 2) return null;
  const [left, right] = logs, fault = noAudit(logs);
  if (fault) return { fault };
  const { verdict, text } = left.core.audit(right.core);
  if (verdict.kind !== "conflict") return { verdict, text };
  const culprits = [...text.matchAll(/^culprit (\d+) (\w+) (\w+)$/gm)].map(([, who, one, other]) => ({
    validator: Number(who), weight: left.settings.weights[who], units: [one, other].map(accused),
  }));
  return { verdict, text, culprits, threshold: left.settings.faultTolerance, evidence: evidenceOf(left.config, culprits) };
}

// ---- a certificate

async function checked({ name, bytes }, given) {
  const certificate = library.certificate(bytes), told = { name, size: bytes.length };
  let signatures;
  try {
    signatures = certificate.signatures();
  } catch (error) {
    if (error instanceof BadCertificate) return { ...told, fault: `input ${name}: ${certificateFaultText(error, bytes)}` };
    throw error;
  }
  const config = certifiedConfig(bytes), settings = readConfig(config);
  Object.assign(told, { instance: library.sha256(config), settings, vertices: signatures.length });
  if (logs[0]?.config) told.isSame = library.sha256(logs[0].config) === told.instance;
  try {
    const scheme = await schemeOf(library, given, settings.weights.length);
    if (!scheme) return told;
    const verdicts = [];
    for (const each of signatures) verdicts.push(await isSigned(each, scheme));
    return { ...told, ...judged(certificate.check(verdicts)), what: scheme.what };
  } catch (error) {
    if (error instanceof LogError) return { ...told, keysFault: `input ${given.keysName}: ${error.said}` };
    throw error;
  }
}

function judged(answer) {
  const { kind, block, height, vertex, weight, error } = answer;
  const text = {
    yes: `yes ${block} height ${height}`, config: `no config ${error?.limit}`, refused: `no refused ${vertex}`,
    exceeded: `no exceeded ${weight}`, unstood: "no standing",
  }[kind];
  return { kind, text: text + "\n", value: kind === "yes" ? valueText(answer.value) : null };
}

// ---- the files

async function sorted(files) {
  const found = { logs: [], certificate: null, keys: null, keysName: null, side: null, strange: [] };
  for (const file of files) {
    const head = new Uint8Array(await file.slice(0, 65).arrayBuffer()), magic = String.fromCharCode(...head.subarray(0, 4));
    const whole = async () => new Uint8Array(await file.arrayBuffer());
    if (magic === "HWLG") found.logs.push(file);
    else if (magic === "HWCT") found.certificate = { name: file.name, bytes: await whole() };
    else if (magic === "HWSG") found.side = await whole();
    else if (isKeys(head)) Object.assign(found, { keys: await whole(), keysName: file.name });
    else found.strange.push(file.name);
  }
  return found;
}

async function work(files) {
  for (const replay of logs) replay.core?.close();
  logs = [];
  const begun = performance.now(), given = await sorted(files);
  for (const file of given.logs.slice(0, 2)) {
    const replay = new Replay(library, file);
    logs.push(replay);
    await replay.run(given);
  }
  const said = { logs: logs.map((replay) => replay.told()), audit: audit(), strange: given.strange, more: given.logs.length - logs.length };
  if (given.certificate) said.certificate = await checked(given.certificate, given);
  const took = performance.now() - begun, marked = markedBy(said.audit);
  for (const replay of logs) replay.facts = replay.core && !replay.fault ? factsOf(replay, marked) : null;
  const firsts = logs.map(({ facts }) => facts && { from: firstOf(facts, said.audit) });
  postMessage({ kind: "shown", said, took, firsts });
}

// The units that an audit is about, by what they are in it.
function markedBy(found) {
  const marked = {};
  if (found?.verdict?.kind !== "conflict") return marked;
  for (const digest of found.culprits.flatMap(({ units }) => units.map((unit) => unit.digest))) marked[digest] = "culprit";
  for (const digest of [found.verdict.left, found.verdict.right]) marked[digest] = `${marked[digest] ?? ""} conflict`.trim();
  return marked;
}

// A conflict is shown where its units are, another log from its beginning.
function firstOf(facts, found) {
  if (found?.verdict?.kind !== "conflict") return 0;
  const times = found.culprits.flatMap(({ units }) => units.map((unit) => unit.time));
  return Math.max(0, facts.placeOfTime(times.reduce((one, other) => (other < one ? other : one))) - LEAD);
}

async function act(data) {
  try {
    if (data.kind === "begin") library = await load(data.module);
    if (data.kind === "begin") postMessage({ kind: "ready", version: library.version() });
    if (data.kind === "work") await work(data.files);
    if (data.kind === "ask") postMessage({ kind: "answer", id: data.id, answer: await logs[data.number].facts.answer(data.question) });
  } catch (error) {
    postMessage({ kind: "failed", text: `${error.name}: ${error.message}` });
  }
}

// One thing after the other: what comes meanwhile waits.
onmessage = ({ data }) => {
  before = before.then(() => act(data));
};
