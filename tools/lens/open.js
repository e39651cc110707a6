// Opens the panels of a page of `lens.py page`, from the data that it wrote into the page.

import { LogFacts } from "../view/facts.js";
import { Panels } from "../view/panels.js";

const SEEN = new Map([[-1, "absent"], [-2, "faulty"]]);

// A log of the data. A number in a panorama, or as a vote, is the place of a unit in the list of all.
function sourceOf(data) {
  const { units } = data, digestOf = (seen) => SEEN.get(seen) ?? (typeof seen === "number" ? units[seen].digest : seen);
  const heights = new Map(units.map(({ digest, height }) => [digest, height]));
  const briefs = units.map((unit, number) => ({ ...unit, number, seq: BigInt(unit.seq), time: BigInt(unit.time), isBlock: unit.value !== null }));
  const facts = new LogFacts({ ...data, briefs: briefs.filter(({ isHidden }) => !isHidden) }, {
    unit: (place) => fullUnit(units[facts.briefs[place].number], digestOf),
    digest: (place) => facts.briefs[place].digest,
    seen: (place, who) => digestOf(facts.briefs[place].panorama[who]),
    height: (digest) => heights.get(digest),
    walk: () => data.walk,
  });
  return { ask: async (question) => facts.answer(question), walks: data.walk.length > 0 };
}

function fullUnit(unit, digestOf) {
  const { seq, time, round, vote, panorama } = unit;
  return { ...unit, seq: BigInt(seq), time: BigInt(time), round: BigInt(round), vote: vote === null ? null : digestOf(vote), panorama: panorama.map(digestOf) };
}

async function openPage() {
  const panels = new Panels(document.getElementById("pictures")), logs = JSON.parse(document.getElementById("data").textContent);
  for (const link of document.querySelectorAll("a[data-digest]")) {
    link.addEventListener("click", (event) => (event.preventDefault(), panels.pick(link.dataset.digest)));
  }
  await panels.show(logs.map(sourceOf), logs.map(({ first }) => ({ from: first })));
  document.body.dataset.state = "done";
}

openPage();
