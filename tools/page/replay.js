// A log that is dropped on the page, replayed by the core: its file by pieces, its report in the program's words.

import { BadBytes, BadConfig, LogError, LogReader, OutOfMemory, ParkFull, RecordsFull, Refusal, readConfig } from "../../bindings/js/highway.js";
import { isSigned, schemeOf } from "./signatures.js";

export { Replay, batchesOf, certificateFaultText };

const PIECE = 4 << 20, BATCH = 128, WRONG_MOST = 20;

// A fault of a file in the program's words.
function faultText(error) {
  if (error instanceof LogError) return error.said;
  if (error instanceof BadBytes) return `config ${error.fault} at ${error.at}`;
  if (error instanceof BadConfig) return `config ${error.limit}${error.limit === "zero weight" ? ` ${error.at}` : ""}`;
  throw error;
}

function certificateFaultText({ part, fault, at }, bytes) {
  if (part === "config") return `config ${fault} at ${at}`;
  if (part === "vertex") return `bad vertex at ${at}: ${fault}`;
  if (fault === "version") return `version ${bytes[4]}`;
  return fault === "bad magic" ? fault : `${fault} at ${at}`;
}

function report(core, refused, repeats) {
  const { settled, parked, dropped, fork, isExceeded, faultyWeight } = core.summary();
  const lines = [`units ${settled} parked ${parked} dropped ${dropped} refused ${refused} repeats ${repeats}`];
  lines.push(`faulty ${core.faulty().join(" ") || "-"}`, `fork ${fork ?? "-"}`);
  for (const { height, block, level, quorum, at } of core.decisionsFrom(0)) {
    lines.push(`final ${height} ${block} level ${level} quorum ${quorum} at ${at}`);
  }
  if (isExceeded) lines.push(`exceeded ${faultyWeight}`);
  return lines.map((line) => line + "\n").join("");
}

// The vertices of a log's file in batches, as they are delivered. The first batch may be empty, and has the configuration.
async function* batchesOf(library, file) {
  const reader = new LogReader(library);
  let isBegun = false;
  for (let at = 0; at < file.size || at === 0; at += PIECE) {
    reader.feed(new Uint8Array(await file.slice(at, at + PIECE).arrayBuffer()));
    if (at + PIECE >= file.size) reader.end();
    if (reader.head() && !isBegun) {
      isBegun = true;
      yield { bytes: new Uint8Array(0), vertices: [], reader };
    }
    for (let batch = reader.take(BATCH); batch.vertices.length; batch = reader.take(BATCH)) yield { ...batch, reader };
    postMessage({ kind: "progress", text: file.name, done: Math.min(file.size, at + PIECE), all: file.size });
  }
}

/** A log that is replayed. `accepted` says for each vertex that was accepted which entry of the log it was. */
class Replay {
  constructor(library, file) {
    Object.assign(this, { library, file, name: file.name, core: null, scheme: null, accepted: [] });
    Object.assign(this, { refused: 0, repeats: 0, entries: 0, good: 0, wrong: [], wrongs: 0, text: "", fault: null });
  }

  // Reads the file by pieces; `fault` says afterwards why it couldn't be replayed.
  async run(given) {
    try {
      for await (const { bytes, vertices, reader } of batchesOf(this.library, this.file)) {
        if (!this.core) await this.begin(reader, given);
        await this.take(bytes, vertices);
        if (this.fault) return;
      }
      this.text = report(this.core, this.refused, this.repeats);
    } catch (error) {
      this.fault = `input ${this.name}: ${faultText(error)}`;
    }
  }

  async begin(reader, given) {
    this.core = this.library.core(reader.config);
    Object.assign(this, { config: reader.config, version: reader.version, settings: readConfig(reader.config) });
    this.scheme = await schemeOf(this.library, given, this.settings.weights.length).catch((error) => {
      this.keysFault = error instanceof LogError ? `input ${given.keysName}: ${error.said}` : String(error.message);
      return null;
    });
  }

  async take(bytes, vertices) {
    const answers = this.core.deliverAll(bytes, vertices);
    answers.forEach((answer, place) => this.fault ?? this.note(answer, vertices[place].at));
    if (this.scheme && !this.fault) for (const sent of vertices) await this.judge(bytes.subarray(sent.start, sent.end), sent);
  }

  note(answer, at) {
    this.entries++;
    if (answer.kind === "repeat") this.repeats++;
    else if (!(answer instanceof Refusal)) this.accepted.push(this.entries);
    if (!(answer instanceof Refusal)) return;
    const { error } = answer;
    this.refused++;
    if (error instanceof BadBytes) throw new LogError(`bad vertex at ${at}: ${error.fault} at ${error.at}`);
    if (error instanceof OutOfMemory) this.fault = "out of memory";
    if (error instanceof RecordsFull) this.fault = `limit records at ${at}`;
    if (error instanceof ParkFull) this.fault = `limit parked at ${at}`;
  }

  async judge(vertex, { at, verdict }) {
    const right = await isSigned(this.library.signatures(vertex), this.scheme);
    this.good += Number(right);
    if (right === verdict) return;
    this.wrongs++;
    if (this.wrong.length < WRONG_MOST) this.wrong.push(`the entry at byte ${at}: verdict ${Number(verdict)}, and the keys say ${Number(right)}`);
  }

  told() {
    const { name, fault, text, version, entries, settings, good, wrong, wrongs, keysFault } = this;
    const said = { name, fault, text, version, entries, keysFault, size: this.file.size };
    if (!settings) return said;
    Object.assign(said, { instance: this.library.sha256(this.config), settings, faulty: this.core.faulty(), summary: this.core.summary() });
    return this.scheme ? { ...said, signatures: { what: this.scheme.what, good, wrong, wrongs } } : said;
  }
}
