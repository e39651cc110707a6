// A unit in full, as a table.

import { element, line } from "./elements.js";

const SEEN_MOST = 128;

/**
 * The table of a unit. `pick` is called with the digest of another one that is clicked.
 * @param {import("./facts.js").Unit} unit @param {Map} labels @param {(digest: string) => void} pick
 */
export function unitTable(unit, labels = new Map(), pick = null) {
  const rows = [...ownRows(unit), ...judgedRows(unit, labels), ...seenRows(unit, pick), ...(unit.citing ? [citingRow(unit, pick)] : [])];
  const shown = rows.filter(([, ...said]) => said.some((each) => each !== null && each !== undefined));
  return element("table", "unit", ...shown.map(([name, ...said]) => element("tr", "", element("td", "", name), element("td", "", ...said))));
}

function ownRows({ digest, creator, seq, time, round, exponent, leader, value, signature }) {
  return [
    ["digest", element("span", "mono", digest)],
    ["made by", `validator ${creator}, number ${seq}`],
    ["time", `${time} ms, in the round from ${round} ms on, exponent ${exponent}${leader === undefined ? "" : `, leader ${leader}`}`],
    ["value", value],
    ["signature", signature && element("span", "mono", signature)],
  ];
}

function judgedRows({ entry, became, vote, value, height, judged, noted, endorsed }, labels) {
  const label = labels.get(vote), shown = label ? `block ${label.text}` : vote && `block ${vote.slice(0, 8)}`;
  return [
    [entry ? "entry" : "it is", `${entry ? `${entry}: ` : ""}${became}`],
    [value === null ? "votes for" : "is", shown],
    ["height", height === null || height === undefined ? null : String(height)],
    ...(judged ?? []).map((said) => ["program", said]),
    ...(noted ?? []).map((said) => ["it is", said]),
    ...(endorsed ?? []).map((each) => ["endorsed", element("span", "mono", each)]),
  ];
}

function seenRows({ panorama, sees }, pick) {
  const rows = panorama.slice(0, SEEN_MOST).map((seen, who) => [`sees of ${who}`, seenText(seen, sees?.[who], pick)]);
  return panorama.length > SEEN_MOST ? [...rows, ["..", `and ${panorama.length - SEEN_MOST} more`]] : rows;
}

function seenText(seen, named, pick) {
  if (seen === "absent") return "absent";
  if (seen === "faulty") return element("span", "alarm", "faulty");
  return named ? unitLink(named, pick) : element("span", "mono", pick ? `${seen} (not in the log)` : seen);
}

function citingRow({ citing, isMore }, pick) {
  const links = citing.flatMap((each) => [unitLink(each, pick), " "]);
  return ["cited by", ...(links.length ? links : ["nobody"]), isMore ? "and more" : null];
}

function unitLink({ digest, creator, seq }, pick) {
  const made = element("a", "unit mono", `${creator}#${seq} ${digest.slice(0, 8)}`);
  made.href = `#unit=${digest}`;
  made.addEventListener("click", (event) => {
    event.preventDefault();
    pick(digest);
  });
  return made;
}

/** The rows of a unit that somebody is blamed by, without links. */
export const unitBeside = (name, unit) => element("div", "side", line("quiet", name), unitTable(unit));
