// How long a replay takes: node --experimental-wasm-memory64 replay_time.js MODULE LOG [TIMES]
// Prints the processor's seconds of each: the first one compiles the module while it runs.
import { readFileSync } from "node:fs";
import { LogReader, load } from "./highway.js";

const PIECE = 4 << 20, BATCH = 128;
const [path, log, times = "4"] = process.argv.slice(2), library = await load(readFileSync(path)), bytes = readFileSync(log);

function replay() {
  const reader = new LogReader(library);
  let core = null;
  for (let at = 0; at < bytes.length; at += PIECE) {
    reader.feed(new Uint8Array(bytes.buffer, bytes.byteOffset + at, Math.min(PIECE, bytes.length - at)));
    if (at + PIECE >= bytes.length) reader.end();
    if (!reader.head()) continue;
    core ??= library.core(reader.config);
    for (let batch = reader.take(BATCH); batch.vertices.length; batch = reader.take(BATCH)) core.deliverAll(batch.bytes, batch.vertices);
  }
  const { settled } = core.summary();
  core.close();
  return settled;
}

for (let left = Number(times); left > 0; left--) {
  const before = process.cpuUsage(), settled = replay(), { user, system } = process.cpuUsage(before);
  console.log(`${((user + system) / 1e6).toFixed(3)} s for ${settled} units, ${library.memorySize() >> 20} MiB`);
}
