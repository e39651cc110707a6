// All logs of the page: their panels, the keys on the keyboard, and the link to a unit.

import { element, line } from "./elements.js";
import { labelsOf } from "./layout.js";
import { Panel } from "./panel.js";

const KEYS = [
  ["← →", "the stretch before, the next one"], ["+ − 0", "larger, smaller, the whole width"], ["/", "search"],
  ["[ ]", "the validator's unit before, its next one"], ["c", "citations"], ["t", "time to scale"], ["s", "starts of summits"],
  ["w", "entry by entry"], [", .", "an entry back, an entry on"], ["n", "the next event of the walk"], ["1 2", "the first log, the other one"],
  ["Esc", "let go of the unit"], ["?", "this list"],
];

// Two logs stand side by side from this width on, as view.css says too.
const BROAD = 1150;

/** The panels of a page. */
export class Panels {
  /** @param {HTMLElement} root where they stand */
  constructor(root) {
    Object.assign(this, { root, panels: [], current: null });
    this.keys = element("section", "card keys", element("h2", "", "Keys"), element("dl", "", ...KEYS.flatMap(([key, what]) => [element("dt", "mono", key), element("dd", "", what)])));
    this.keys.hidden = true;
    document.addEventListener("keydown", (event) => this.press(event));
    window.addEventListener("hashchange", () => this.followLink());
  }

  clear() {
    for (const { walk } of this.panels) walk?.stop();
    this.panels = [];
    this.current = null;
    this.root.replaceChildren();
  }

  /** Shows logs. `firsts` says for each at which unit it is opened; none is the first. */
  async show(sources, firsts = []) {
    this.clear();
    if (!sources.length) return;
    const overviews = await Promise.all(sources.map((source) => source.ask({ kind: "overview" })));
    const labels = labelsOf(...overviews.map(({ blocks }) => blocks));
    const isTwo = sources.length > 1, wide = this.root.clientWidth / (isTwo && innerWidth >= BROAD ? 2 : 1) - 34;
    this.panels = sources.map((source, place) => new Panel(source, overviews[place], { labels, page: this, wide }));
    this.current = this.panels[0] ?? null;
    const hint = line("quiet", "Click a unit. Drag to move; Ctrl and the wheel, or + and −, change the size. ? lists the keys.");
    this.root.replaceChildren(hint, this.keys, element("div", isTwo ? "panels two" : "panels", ...this.panels.map((panel) => panel.root)));
    await Promise.all(this.panels.map((panel, place) => panel.open(firsts[place] ?? { from: 0 })));
    await this.followLink();
  }

  /** Picks a unit in the first log that has it. */
  async pick(digest) {
    for (const panel of this.panels) if (await panel.show(digest)) return panel.root.scrollIntoView({ block: "nearest" });
  }

  // ---- the link to a unit

  followLink() {
    const digest = /^#unit=([0-9a-f]{64})$/.exec(location.hash)?.[1];
    if (digest && this.current?.unit?.digest !== digest) return this.pick(digest);
  }

  picked(panel, digest) {
    this.current = panel;
    const link = digest ? `#unit=${digest}` : "#";
    if (location.hash !== link) history.replaceState(null, "", link);
  }

  chosen(panel) {
    this.current = panel;
  }

  // ---- keys

  press(event) {
    const { target, key } = event;
    if (event.ctrlKey || event.altKey || event.metaKey) return;
    if (target.matches?.("input[type=search]")) {
      if (key === "Escape") target.blur();
      return;
    }
    if (key === "?") this.keys.hidden = !this.keys.hidden;
    const act = this.current && this.actions()[key];
    if (!act || (target.matches?.("input") && key.startsWith("Arrow"))) return;
    event.preventDefault();
    act();
  }

  actions() {
    const panel = this.current, { ticks, walk } = panel;
    const flip = (name) => () => ticks[name].hidden || ticks[name].querySelector("input").click();
    const choose = (place) => () => this.panels[place] && ((this.current = this.panels[place]), this.current.root.scrollIntoView({ block: "nearest" }));
    return {
      ArrowLeft: () => panel.earlier.disabled || panel.turn(-1), ArrowRight: () => panel.later.disabled || panel.turn(1),
      "+": () => panel.zoomBy(1.25), "-": () => panel.zoomBy(0.8), 0: () => panel.fit(), "/": () => panel.field.focus(),
      "[": () => panel.step(-1), "]": () => panel.step(1), c: flip("lines"), t: flip("scale"), s: flip("starts"), w: flip("walk"),
      ",": () => walk?.go(walk.at - 1), ".": () => walk?.go(walk.at + 1), n: () => walk?.go(walk.nextEvent()),
      1: choose(0), 2: choose(1), Escape: () => panel.letGo(),
    };
  }
}
