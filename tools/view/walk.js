// The journal entry by entry: a slider, and what the log had come to by then.

import { button, element, line } from "./elements.js";

const PACE = 350;

/**
 * @typedef {{what: string, became: string, unit: string | null, settles: string[], counts: number[], finals: string[],
 *   faulty: number[], fork: string | null}} Step
 * What an entry did: the units that it settled, which blocks became final and who became faulty with it. `counts` are
 * the settled, the parked, and the dropped units by then.
 */

/** A walk through a log. It tells the panel which entry it is at. */
export class Walk {
  /** @param {Step[]} steps @param {{labels: Map, moved: (walk: Walk, follow: boolean) => void}} panel */
  constructor(steps, panel) {
    Object.assign(this, { steps, panel, at: steps.length, playing: null });
    this.settled = new Map();
    this.final = new Map();
    steps.forEach(({ settles, finals }, place) => {
      for (const digest of settles) this.settled.set(digest, place + 1);
      for (const digest of finals) this.final.set(digest, place + 1);
    });
    this.slider = Object.assign(element("input"), { type: "range", min: 0, max: steps.length, value: steps.length, ariaLabel: "entry" });
    this.slider.addEventListener("input", () => this.go(Number(this.slider.value)));
    this.said = element("div", "said");
    this.root = element("div", "walk", element("p", "", ...this.buttons()), this.slider, this.said);
    this.tell();
  }

  buttons() {
    return [
      button("|◀", "to the beginning", () => this.go(0)),
      button("◀", "an entry back", () => this.go(this.at - 1)),
      button("▶", "an entry on", () => this.go(this.at + 1)),
      button("▶|", "to the end", () => this.go(this.steps.length)),
      button("play", "walk on by itself", () => this.play()),
      button("next event", "to the next entry with which a block became final, or a validator faulty", () => this.go(this.nextEvent())),
    ];
  }

  nextEvent() {
    const found = this.steps.findIndex(({ finals, faulty }, place) => place >= this.at && finals.length + faulty.length);
    return found < 0 ? this.steps.length : found + 1;
  }

  go(to) {
    this.at = Math.max(0, Math.min(this.steps.length, to));
    this.slider.value = this.at;
    this.tell();
    this.panel.moved(this, true);
  }

  play() {
    if (this.playing) {
      this.stop();
      return;
    }
    if (this.at === this.steps.length) this.go(0);
    this.playing = setInterval(() => {
      this.go(this.at + 1);
      if (this.at === this.steps.length) this.stop();
    }, PACE);
  }

  stop() {
    clearInterval(this.playing);
    this.playing = null;
  }

  /** The unit of the entry that it is at, or null. */
  get unit() {
    return this.steps[this.at - 1]?.unit ?? null;
  }

  tell() {
    const { steps, at, said } = this, step = steps[at - 1];
    if (!step) {
      said.replaceChildren(line("", `Nothing was delivered yet. There are ${steps.length} entries.`));
      return;
    }
    const name = (digest) => `block ${this.panel.labels.get(digest)?.text ?? digest.slice(0, 8)}`, past = steps.slice(0, at);
    const faulty = past.flatMap((each) => each.faulty), [settled, parked, dropped] = step.counts;
    said.replaceChildren(
      line("", `Entry ${at} of ${steps.length}: ${step.what}: ${step.became}`),
      ...step.finals.map((digest) => line("big", `${name(digest)} became final`)),
      ...step.faulty.map((who) => line("alarm", `validator ${who} is faulty from here on`)),
      line("quiet", `So far: settled ${settled}, parked ${parked}, dropped ${dropped}; faulty: ${faulty.join(" ") || "nobody"}; fork choice: ${step.fork ? name(step.fork) : "none"}; final blocks: ${past.reduce((sum, each) => sum + each.finals.length, 0)}`),
    );
  }

  /** Shows in the picture what there was by then. `marks` are the elements of the units. */
  show(spots, marks) {
    for (const { unit, ring } of spots.values()) {
      const mark = marks.get(unit.digest), { at } = this;
      mark.classList.toggle("ahead", unit.entry > at);
      mark.classList.toggle("waiting", unit.entry <= at && (this.settled.get(unit.digest) ?? 0) > at);
      mark.classList.toggle("unframed", (this.final.get(unit.digest) ?? 0) > at);
      mark.classList.toggle("calm", ring > at);
      mark.classList.toggle("now", unit.digest === this.unit);
    }
  }
}
