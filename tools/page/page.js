// The page: takes files, hands them to the worker, and shows what it said. All that comes from a file is set as text.

import { counted, element, line, mono } from "../view/elements.js";
import { Panels } from "../view/panels.js";
import { unitBeside } from "../view/unit.js";

const at = (name) => document.getElementById(name), panels = new Panels(at("pictures")), asked = new Map();
let worker = null, starting = null, number = 0;

function printed(of, text) {
  const made = element("pre", "program", text);
  made.dataset.of = of;
  return made;
}

// ---- the worker

async function unpacked(name) {
  const bytes = Uint8Array.from(atob(at(name).textContent.trim()), (letter) => letter.charCodeAt(0));
  return new Response(new Blob([bytes]).stream().pipeThrough(new DecompressionStream("gzip"))).arrayBuffer();
}

async function start() {
  const url = URL.createObjectURL(new Blob([at("worker").textContent], { type: "text/javascript" }));
  worker = new Worker(url);
  worker.onmessage = ({ data }) => hear(data);
  worker.onerror = (event) => fail(event.message ?? "the worker didn't start");
  worker.postMessage({ kind: "begin", module: await unpacked("module") });
}

function end() {
  worker?.terminate();
  worker = starting = null;
}

function hear(data) {
  if (data.kind === "ready" && document.body.dataset.state === "begins") document.body.dataset.state = "ready";
  if (data.kind === "progress") progress(data);
  if (data.kind === "shown") show(data);
  if (data.kind === "answer") answered(data);
  if (data.kind === "failed") fail(data.text);
}

// What the view asks of a log is asked of the worker.
function ask(log, question) {
  worker.postMessage({ kind: "ask", id: ++number, number: log, question });
  return new Promise((answer) => asked.set(number, answer));
}

function answered({ id, answer }) {
  asked.get(id)?.(answer);
  asked.delete(id);
}

function fail(text) {
  const isOld = /memory64|i64|index type|CompileError|LinkError/i.test(text);
  at("said").replaceChildren(line("alarm", text), line("", isOld ? "This browser has no WebAssembly with 64-bit memory: Chrome 133 and Firefox 134 have it." : ""));
  // What failed in the middle isn't used again.
  end();
  finish("failed");
}

function finish(state) {
  at("going").hidden = true;
  document.body.dataset.state = state;
}

function progress({ text, done, all }) {
  at("bar").max = Math.max(1, all);
  at("bar").value = done;
  at("name").textContent = text;
}

async function take(files) {
  if (!files.length) return;
  const given = [...files];
  at("said").replaceChildren();
  panels.clear();
  asked.clear();
  at("going").hidden = false;
  document.body.dataset.state = "works";
  delete document.body.dataset.pictures;
  await (starting ??= start());
  worker.postMessage({ kind: "work", files: given });
}

function stop() {
  end();
  at("said").replaceChildren(line("", "Stopped. Nothing was found out."));
  finish("stopped");
}

// ---- what was said

async function show({ said, took, firsts }) {
  const { logs, audit, certificate, strange, more } = said, box = at("said");
  box.replaceChildren();
  for (const name of strange) box.append(line("alarm", `${name} is no log, no certificate and no keys.`));
  if (more) box.append(line("alarm", `Two logs are shown, and ${more} more left out.`));
  if (audit) box.append(auditCard(audit, logs));
  if (certificate) box.append(certificateCard(certificate));
  for (const log of logs) box.append(logCard(log));
  box.append(line("quiet", `${Math.round(took)} ms`));
  finish("done");
  document.body.dataset.took = Math.round(took);
  const shown = firsts.map((first, log) => first && { first, ask: (question) => ask(log, question), walks: true }).filter(Boolean);
  await panels.show(shown, shown.map(({ first }) => first));
  document.body.dataset.pictures = shown.length;
}

function networkLines({ instance, settings: { weights, total, faultTolerance, minExponent } }) {
  return [
    line("", "instance ", mono(instance)),
    line("", `${counted(weights.length, "validator")} of total weight ${total}; up to ${faultTolerance} of it may be faulty; rounds from ${2n ** BigInt(minExponent)} ms on`),
  ];
}

function logCard(log) {
  const card = element("section", "card", element("h2", "", log.name));
  if (log.settings) card.append(...networkLines(log), line("", `version ${log.version}, ${log.size} bytes, ${counted(log.entries, "entry", "entries")}`));
  if (log.faulty?.length) card.append(line("alarm", `Faulty: ${log.faulty.map((who) => `validator ${who}`).join(", ")}`));
  if (log.summary?.isExceeded) card.append(line("alarm", "The faulty weigh more than the threshold, so final blocks promise nothing."));
  card.append(signaturesLine(log), printed("replay", log.fault ? log.fault + "\n" : log.text));
  return card;
}

function signaturesLine({ signatures, keysFault, entries }) {
  if (keysFault) return line("alarm", `${keysFault}: no signature was checked.`);
  if (!signatures) return line("warn", "The signatures weren't checked: this believes the verdict of each entry. Drop the keys too.");
  const { what, good, wrong, wrongs } = signatures;
  if (!wrongs) return line("good", `Each verdict is what ${what} say: ${good} of ${counted(entries, "entry", "entries")} with good signatures.`);
  return element("div", "alarm", line("", `${wrongs} of ${counted(entries, "verdict")} aren't what ${what} say:`), ...wrong.map((each) => line("", each)));
}

function auditCard(audit, logs) {
  const card = element("section", "card"), { verdict } = audit;
  if (audit.fault) return element("section", "card", line("alarm big", "The two logs can't be held against each other."), printed("audit", audit.fault + "\n"));
  if (verdict.kind === "agree") card.append(line("good big", `No conflict: the two logs agree on ${counted(verdict.common, "final block")}.`));
  if (verdict.kind === "clash") card.append(line("alarm big", "Two different units have one digest."));
  if (verdict.kind === "conflict") card.append(...conflict(audit, logs));
  card.append(printed("audit", audit.text));
  return card;
}

function conflict({ verdict, culprits, threshold, evidence }, logs) {
  const names = culprits.map(({ validator }) => `validator ${validator}`).join(", ");
  const checked = logs.every(({ signatures }) => signatures && !signatures.wrongs);
  const save = element("a", "save", "Keep the evidence");
  save.href = URL.createObjectURL(new Blob([evidence]));
  save.download = "evidence.hwlg";
  return [
    line("alarm big", `The two logs decided different blocks at height ${verdict.height}. To blame: ${names}.`),
    line("", `${logs[0].name} has ${verdict.left.slice(0, 8)}, ${logs[1].name} has ${verdict.right.slice(0, 8)}. The culprits weigh ${verdict.weight}, above the threshold of ${threshold}.`),
    checked ? null : line("warn", "Accuse nobody before the signatures of both logs were checked with the keys."),
    ...culprits.map(culpritPart),
    line("", save, " a log of these pairs alone, to be checked with the keys by anybody"),
  ].filter(Boolean);
}

function culpritPart({ validator, weight, units }) {
  const pair = element("div", "pair", ...units.map((unit) => unitBeside(`in ${unit.names.join(" and ")}`, unit)));
  return element("div", "culprit", element("h3", "", `Validator ${validator}, of weight ${weight}, made two units with one number`), pair);
}

function certificateCard(certificate) {
  const card = element("section", "card", element("h2", "", certificate.name));
  if (certificate.fault) return element("section", "card", element("h2", "", certificate.name), printed("check", certificate.fault + "\n"));
  card.append(line("warn", "Anybody can make a certificate of a configuration of his own. Is this your network?"), ...networkLines(certificate));
  card.append(line("", `weights ${certificate.settings.weights.slice(0, 64).join(" ")}${certificate.settings.weights.length > 64 ? " .." : ""}`));
  if (certificate.isSame !== undefined) card.append(line(certificate.isSame ? "good" : "alarm", certificate.isSame ? "It is that of the log." : "It isn't that of the log."));
  card.append(line("", counted(certificate.vertices, "vertex", "vertices")));
  if (certificate.keysFault) card.append(printed("check", certificate.keysFault + "\n"));
  else if (!certificate.text) card.append(line("warn", "It wasn't checked: drop the keys with it."));
  else card.append(line(certificate.kind === "yes" ? "good" : "alarm", `By this configuration, and ${certificate.what}:`), printed("check", certificate.text));
  if (certificate.value) card.append(line("", "value ", mono(certificate.value)));
  return card;
}

// ---- events

// The input is emptied, so that a file which has changed since can be chosen once more.
at("files").addEventListener("change", (event) => {
  take(event.target.files);
  event.target.value = "";
});
at("stop").addEventListener("click", stop);
for (const kind of ["dragover", "drop"]) document.addEventListener(kind, (event) => event.preventDefault());
document.addEventListener("drop", (event) => take(event.dataTransfer.files));
starting = start();
starting.catch((error) => fail(String(error)));
