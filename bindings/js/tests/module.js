// The module that the tests are of: HIGHWAY_WASM, else the newest one that tools/page.sh made here.
import { readFileSync, readdirSync, statSync } from "node:fs";
import { load } from "../highway.js";

const kept = new URL("../../../out/page/", import.meta.url);

function newest() {
  try {
    const found = readdirSync(kept).filter((name) => name.endsWith(".wasm")).map((name) => new URL(name, kept));
    return found.sort((left, right) => statSync(right).mtimeMs - statSync(left).mtimeMs)[0] ?? null;
  } catch {
    return null;
  }
}

const path = process.env.HIGHWAY_WASM ?? newest();
export const skip = path ? false : "there is no module: HIGHWAY_WASM names one";
export const library = async () => load(readFileSync(path));
export const stored = (name) => new Uint8Array(readFileSync(new URL(name, new URL("../../rust/tests/data/", import.meta.url))));
export const shipped = (name) => new Uint8Array(readFileSync(new URL(name, new URL("../../../crates/highway/data/", import.meta.url))));
