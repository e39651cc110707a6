// One log on the page: its overview, a stretch of it as a graph, a search, and the unit that is picked.

import { areMany, layOut } from "./layout.js";
import { button, counted, element, line, span, tick } from "./elements.js";
import { drawGraph, drawLinks, drawNames, showUntil } from "./graph.js";
import { drawHeat, drawMap, drawStrip, heatLegend } from "./overview.js";
import { unitTable } from "./unit.js";
import { Walk } from "./walk.js";

const UNITS = 240, UNITS_MOST = 1000, LINES_MOST = 1500, FINALS_MOST = 500, EDGE = 60, ZOOM = 1.25;

/** A log that is shown. */
export class Panel {
  /**
   * @param {{ask: (question: object) => Promise<any>, walks: boolean}} source what answers the questions of facts.js
   * @param {object} overview
   * @param {{labels: Map, page: import("./panels.js").Panels, wide: number}} where `wide` is the room in points
   */
  constructor(source, overview, { labels, page, wide }) {
    Object.assign(this, { source, overview, labels, page, wide, zoom: 1, unit: null, walk: null, scene: null, marks: new Map() });
    const lanes = overview.weights.length;
    this.most = Math.min(UNITS_MOST, Math.max(UNITS, 4 * lanes));
    this.base = overview.times[0] >> BigInt(overview.exponent);
    this.how = { isToScale: false, withStarts: false, withLines: null };
    Object.assign(this, { view: element("div", "view"), walkBox: element("div"), box: element("div", "picked"), lost: element("span", "alarm lost"), place: element("span", "quiet") });
    this.mapBox = element("div");
    this.root = element("section", "card panel", ...this.headParts(), ...this.overviewParts(), this.controls(), this.choices(), this.mapBox, this.view, this.walkBox, this.box, ...this.finalParts());
    this.root.tabIndex = -1;
    this.listen();
  }

  // ---- the parts

  headParts() {
    const { name, head, notes, faulty, weights } = this.overview, names = faulty.map((who) => `validator ${who} (weight ${weights[who]})`);
    const said = names.length > 16 ? `${names.slice(0, 16).join(", ")} and ${names.length - 16} more` : names.join(", ");
    return [element("h2", "", name), names.length ? line("alarm", `Faulty: ${said}`) : null, ...notes.map((note) => line("alarm", note)), ...head.map((text) => line("quiet", text))].filter(Boolean);
  }

  overviewParts() {
    const { weights, count } = this.overview, open = (time) => this.open({ time }), parts = [];
    this.glances = [];
    if (this.overview.strip.length > 1) {
      this.glances.push(drawStrip(this.overview, this.wide, open));
      parts.push(element("div", "scroll", this.glances[0].root));
    }
    if (areMany(weights.length) || count > this.most) {
      const heat = drawHeat(this.overview, open);
      this.glances.push(heat);
      parts.push(heatLegend(), element("div", "scroll", heat.root), line("quiet", "Click a round, or a place in the strip of finality, to open it below."));
    }
    return parts;
  }

  controls() {
    this.earlier = button("earlier", "the stretch before (←)", () => this.turn(-1));
    this.later = button("later", "the next stretch (→)", () => this.turn(1));
    const zooms = [button("+", "larger (+)", () => this.zoomBy(ZOOM)), button("−", "smaller (−)", () => this.zoomBy(1 / ZOOM)), button("fit", "the whole width (0)", () => this.fit())];
    return element("p", "controls", this.search(), this.lost, this.earlier, this.later, ...zooms, this.place);
  }

  // A field for a digest or its beginning, a validator's number, a validator, or the height of a final block.
  search() {
    this.field = element("input", "search");
    Object.assign(this.field, { type: "search", placeholder: "digest, 1#20, height 7, validator 3", ariaLabel: "find a unit" });
    this.field.addEventListener("change", () => this.field.value && this.find(this.field.value));
    return this.field;
  }

  choices() {
    this.ticks = {
      scale: tick("time to scale", false, (isOn) => this.choose({ isToScale: isOn })),
      lines: tick("citations", true, (isOn) => this.choose({ withLines: isOn })),
      starts: tick("starts of summits", false, (isOn) => this.choose({ withStarts: isOn })),
      walk: tick("entry by entry", false, (isOn) => this.setWalk(isOn)),
    };
    this.ticks.starts.hidden = !this.overview.hasStarts;
    this.ticks.walk.hidden = !this.source.walks;
    this.scaleText = element("span", "quiet");
    return element("p", "choices", ...Object.values(this.ticks), this.scaleText);
  }

  finalParts() {
    const { finals } = this.overview, made = element("details", "finals", element("summary", "", counted(finals.length, "final block")));
    for (const { block, height, level, quorum, at, committee } of finals.slice(0, FINALS_MOST)) {
      const link = element("a", "unit", `block ${this.labels.get(block)?.text ?? height}`);
      link.href = `#unit=${block}`;
      link.addEventListener("click", (event) => (event.preventDefault(), this.show(block)));
      made.append(line("", link, ` ${block.slice(0, 8)}, level ${level}, quorum ${quorum}, at ${at}${committee ? `; committee ${committee}` : ""}`));
    }
    if (finals.length > FINALS_MOST) made.append(line("quiet", `and ${finals.length - FINALS_MOST} more: search for a height`));
    return finals.length ? [made] : [];
  }

  // ---- what is shown

  /** Shows a stretch: from a place, or from a time on. */
  async open(where) {
    this.stretch = await this.source.ask({ kind: "stretch", most: this.most, ...where });
    this.draw();
  }

  turn(way) {
    return this.open({ from: this.stretch.from + (way * this.most) / 2 });
  }

  choose(changed) {
    Object.assign(this.how, changed);
    this.draw();
  }

  draw() {
    const { stretch, overview, labels, how } = this, { from, units, count } = stretch, { weights, exponent, marked, faulty } = overview;
    this.scene = layOut(units, { weights, exponent, base: this.base, labels, marked, isToScale: how.isToScale, withStarts: how.withStarts });
    const withLines = how.withLines ?? this.scene.lines.length <= LINES_MOST;
    this.ticks.lines.querySelector("input").checked = withLines;
    this.graph = drawGraph(this.scene, { withLines });
    this.names = drawNames(this.scene, { weights, faulty });
    this.view.replaceChildren(element("div", "sheet", this.graph, this.names));
    this.marks = new Map([...this.graph.querySelectorAll("[data-unit]")].map((mark) => [mark.dataset.unit, mark]));
    this.setSize();
    this.drawMap();
    if (this.unit) drawLinks(this.graph, this.scene.spots, this.unit);
    if (this.walk) this.showWalk(this.walk);
    this.earlier.disabled = from === 0;
    this.later.disabled = from + units.length >= count;
    this.tellPlace();
  }

  tellPlace() {
    const { from, units, count } = this.stretch, { perSecond, left } = this.scene;
    this.place.textContent = `units ${units.length ? from + 1 : 0} to ${from + units.length} of ${count} by time${left ? `; ${left} of no validator` : ""}`;
    this.scaleText.textContent = perSecond === null ? "Time isn't to scale: a moment at which nothing happened takes no room." : `Time is to scale: a second has ${perSecond.toPrecision(3)} points.`;
    if (units.length) for (const glance of this.glances) glance.mark(units[0].time, units[units.length - 1].time);
  }

  drawMap() {
    const { clientWidth } = this.view;
    this.map = drawMap(this.scene, (part) => (this.view.scrollLeft = part * this.scene.width * this.zoom - clientWidth / 2));
    this.mapBox.replaceChildren(this.map.root);
    this.markMap();
  }

  markMap() {
    const { scrollLeft, clientWidth, scrollWidth } = this.view;
    this.mapBox.classList.toggle("off", scrollWidth <= clientWidth + 1);
    this.map?.mark(scrollLeft / scrollWidth, Math.min(1, (scrollLeft + clientWidth) / scrollWidth));
  }

  // ---- a unit

  /** Opens the stretch around a unit, and picks it. Answers whether there is such a unit. */
  async show(digest) {
    const unit = await this.source.ask({ kind: "unit", digest });
    if (!unit) return false;
    this.unit = unit;
    if (this.scene?.spots.has(digest)) drawLinks(this.graph, this.scene.spots, unit);
    else await this.open({ from: unit.place - Math.floor(this.most / 2) });
    this.box.replaceChildren(element("h3", "", `${unit.value === null ? "Unit" : "Block"} ${digest.slice(0, 8)}`), unitTable(unit, this.labels, (other) => this.show(other)));
    this.bring(digest);
    this.page.picked(this, digest);
    return true;
  }

  letGo() {
    this.unit = null;
    this.box.replaceChildren();
    this.graph.querySelector(".overlay").replaceChildren();
    this.page.picked(this, null);
  }

  async find(text) {
    const found = await this.source.ask({ kind: "find", text, from: this.unit?.place ?? -1 });
    this.lost.textContent = found ? "" : `there is no unit ${text}`;
    if (found) await this.show(found.digest);
  }

  /** Picks the unit before or behind the picked one on its lane. */
  async step(way) {
    if (!this.unit) return;
    const { creator, seq } = this.unit, found = await this.source.ask({ kind: "find", text: `${creator}#${seq + BigInt(way)}` });
    if (found) await this.show(found.digest);
  }

  // Scrolls so that a unit can be seen, if it can't.
  bring(digest) {
    const spot = this.scene.spots.get(digest), { view, zoom } = this;
    if (!spot) return;
    const x = spot.x * zoom, y = spot.y * zoom, left = view.scrollLeft + this.names.getBoundingClientRect().width + EDGE;
    if (x < left || x > view.scrollLeft + view.clientWidth - EDGE) view.scrollLeft = x - view.clientWidth / 2;
    if (y < view.scrollTop + EDGE || y > view.scrollTop + view.clientHeight - EDGE) view.scrollTop = y - view.clientHeight / 2;
  }

  // ---- entry by entry

  async setWalk(isOn) {
    this.walk?.stop();
    this.walk = isOn ? new Walk(await this.source.ask({ kind: "walk" }), this) : null;
    this.walkBox.replaceChildren(...(this.walk ? [this.walk.root] : []));
    this.draw();
  }

  /** The walk is at another entry. */
  async moved(walk) {
    const { unit } = walk;
    if (unit && !this.scene.spots.has(unit)) {
      const found = await this.source.ask({ kind: "find", text: unit });
      if (found) await this.open({ from: found.place - Math.floor(this.most / 2) });
    }
    this.showWalk(walk);
    if (unit) this.bring(unit);
  }

  showWalk(walk) {
    walk.show(this.scene.spots, this.marks);
    showUntil(this.graph, this.scene, walk.at);
  }

  // ---- size

  zoomBy(by, x = this.view.clientWidth / 2, y = this.view.clientHeight / 2) {
    const { view } = this, zoom = Math.max(0.05, Math.min(6, this.zoom * by)), ratio = zoom / this.zoom;
    const left = (view.scrollLeft + x) * ratio - x, top = (view.scrollTop + y) * ratio - y;
    this.zoom = zoom;
    this.setSize();
    view.scrollLeft = left;
    view.scrollTop = top;
    this.markMap();
  }

  fit() {
    this.zoomBy(this.view.clientWidth / this.scene.width / this.zoom, 0, 0);
  }

  setSize() {
    for (const each of [this.graph, this.names]) {
      const { width, height } = each.viewBox.baseVal;
      each.setAttribute("width", width * this.zoom);
      each.setAttribute("height", height * this.zoom);
    }
  }

  // ---- events

  listen() {
    const { view } = this;
    view.addEventListener("scroll", () => this.markMap());
    view.addEventListener("click", (event) => {
      const mark = event.target.closest("[data-unit]");
      if (mark && !this.isDragged) this.show(mark.dataset.unit);
    });
    view.addEventListener("wheel", (event) => {
      if (!event.ctrlKey) return;
      event.preventDefault();
      const seen = view.getBoundingClientRect();
      this.zoomBy(event.deltaY < 0 ? 1.12 : 1 / 1.12, event.clientX - seen.left, event.clientY - seen.top);
    }, { passive: false });
    this.root.addEventListener("pointerdown", () => this.page.chosen(this));
    listenToDrags(this);
  }
}

// A press and a move drag the picture.
function listenToDrags(panel) {
  const { view } = panel;
  let held = null;
  view.addEventListener("pointerdown", (event) => {
    if (event.button !== 0) return;
    held = { x: event.clientX, y: event.clientY, left: view.scrollLeft, top: view.scrollTop };
    panel.isDragged = false;
  });
  view.addEventListener("pointermove", (event) => {
    if (!held || !(event.buttons & 1)) return;
    const x = event.clientX - held.x, y = event.clientY - held.y;
    panel.isDragged ||= Math.abs(x) + Math.abs(y) > 4;
    view.scrollLeft = held.left - x;
    view.scrollTop = held.top - y;
  });
  for (const kind of ["pointerup", "pointerleave"]) view.addEventListener(kind, () => (held = null));
}
