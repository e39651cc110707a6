// What is asked of a log that was read: its overview, a stretch of its units, a unit, a search. The facts themselves come
// from elsewhere: in `lens.py page` from data that the lens wrote, in the page of the core from hw_c. Nothing is judged.

const COLUMNS = 1100, CITING = 200;

/**
 * The kinds of a cell of the heat map, in words.
 * A late unit came after two validators had made units later than its round's end.
 */
export const CELLS = ["none", "one unit", "both units", "late", "two units with one number"];
const NONE = 0, ONE = 1, BOTH = 2, LATE = 3, EQUIVOCATED = 4;

/**
 * A unit in few numbers.
 * @typedef {{creator: number, seq: bigint, time: bigint, exponent: number, isBlock: boolean, journal: number | null}} Brief
 * `journal` is the unit's place among all that was accepted, or null.
 *
 * A unit in full. An observation is "absent", "faulty" or a digest.
 * @typedef {{digest: string, creator: number, seq: bigint, time: bigint, exponent: number, round: bigint, entry: number,
 *   became: string, state: string, value: string | null, vote: string | null, height: number | null,
 *   panorama: string[], endorsed: string[], judged: string[]}} Unit
 *
 * @typedef {{block: string, height: number, level: number, quorum: string, at: number}} Final
 * `at` is how many vertices were accepted when the block became final.
 */

/** A log's facts, by the place of its units in the order of time. */
export class LogFacts {
  /**
   * @param {{name: string, weights: string[], exponent: number, faulty: number[], finals: Final[], briefs: Brief[],
   *   head: string[], notes: string[], marked: Object<string, string>, hasStarts: boolean}} log `marked` are the units of
   *   an audit: "culprit", "conflict", or both words.
   * @param {{unit: (place: number) => Unit, digest: (place: number) => string, seen: (place: number, who: number) => string,
   *   height: (block: string) => number | null, walk: () => any}} ask
   */
  constructor(log, ask) {
    Object.assign(this, log, { ask, isFinal: new Set(log.finals.map(({ block }) => block)), finalWith: new Map() });
    for (const { block, at } of log.finals) this.finalWith.set(at - 1, [...(this.finalWith.get(at - 1) ?? []), block]);
    this.briefs.sort((left, right) => (left.time < right.time ? -1 : left.time > right.time ? 1 : left.journal - right.journal));
    this.byDigest = null;
  }

  get count() {
    return this.briefs.length;
  }

  /** The answer to a question, as messages carry it. */
  answer(question) {
    if (question.kind === "overview") return this.overview();
    if (question.kind === "stretch") return this.stretch(this.placeBy(question), question.most);
    if (question.kind === "unit") return this.unitOf(question.digest);
    if (question.kind === "walk") return this.ask.walk();
    if (question.kind === "find") return this.find(question.text, question.from ?? 0);
    throw new RangeError(`no question ${question.kind}`);
  }

  placeBy({ from, time, most }) {
    const place = time === undefined ? from : this.placeOfTime(time);
    return Math.max(0, Math.min(place, this.count - most));
  }

  /** The place of the first unit that isn't earlier. */
  placeOfTime(time) {
    let low = 0, high = this.count;
    while (low < high) {
      const middle = (low + high) >> 1;
      if (this.briefs[middle].time < time) low = middle + 1;
      else high = middle;
    }
    return low;
  }

  overview() {
    const { name, weights, faulty, exponent, count, head, notes, marked, finals, hasStarts } = this, glance = { heat: this.heat(), strip: this.strip() };
    const times = count ? [this.briefs[0].time, this.briefs[count - 1].time] : [0n, 0n];
    return { name, weights, faulty, exponent, count, head, notes, marked, finals, hasStarts, times, ...glance, blocks: this.blocks() };
  }

  // ---- lateness

  // For each unit whether it came after two validators had made units past the end of its round.
  lateOnes() {
    const found = new Set(), latest = new Map(), needed = Math.min(2, this.weights.length);
    for (const brief of this.inJournal()) {
      const end = ((brief.time >> BigInt(brief.exponent)) + 1n) << BigInt(brief.exponent);
      let past = 0;
      for (const time of latest.values()) past += Number(time >= end);
      if (past >= needed) found.add(brief);
      const known = latest.get(brief.creator);
      if (known === undefined || known < brief.time) latest.set(brief.creator, brief.time);
    }
    return found;
  }

  inJournal() {
    return this.briefs.filter(({ journal }) => journal !== null).sort((left, right) => left.journal - right.journal);
  }

  // ---- the heat map

  /** For each column of rounds what each validator made. Rounds are those of the least exponent. */
  heat() {
    const rounds = this.cellsByRound(), each = Math.max(1, Math.ceil(rounds.length / COLUMNS)), columns = [];
    for (let at = 0; at < rounds.length; at += each) columns.push(joinedRounds(rounds.slice(at, at + each)));
    return { columns, each, rounds: rounds.length };
  }

  cellsByRound() {
    const rounds = new Map(), first = new Map(), late = this.lateOnes(), width = this.weights.length;
    for (const brief of this.briefs) {
      if (brief.creator >= width) continue;
      const round = brief.time >> BigInt(this.exponent), cells = rounds.get(round) ?? new Uint8Array(width), name = `${brief.creator} ${brief.seq}`;
      rounds.set(round, cells);
      const twin = first.get(name);
      cells[brief.creator] = Math.max(twin ? EQUIVOCATED : late.has(brief) ? LATE : NONE, oneMore(cells[brief.creator]));
      if (twin) twin[brief.creator] = EQUIVOCATED;
      first.set(name, cells);
    }
    return [...rounds].map(([round, cells]) => ({ round, time: round << BigInt(this.exponent), cells }));
  }

  // ---- the strip of finality

  /**
   * For each final block its height, its time, and the latest time among the units that had come when it became final.
   */
  strip() {
    const latest = this.latestTimes(), found = [];
    for (const { block, height, at } of this.finals) {
      const place = this.placeOf(block), time = place === undefined ? null : this.briefs[place].time;
      const since = latest(at);
      if (time !== null && since !== null) found.push({ block, height, time, since: since < time ? time : since });
    }
    return found;
  }

  latestTimes() {
    const order = this.inJournal(), latest = [];
    for (const { time } of order) latest.push(latest.length && latest[latest.length - 1] > time ? latest[latest.length - 1] : time);
    return (at) => {
      let low = 0, high = order.length;
      while (low < high) {
        const middle = (low + high) >> 1;
        if (order[middle].journal < at) low = middle + 1;
        else high = middle;
      }
      return low ? latest[low - 1] : null;
    };
  }

  // ---- names

  placeOf(digest) {
    this.byDigest ??= new Map(this.briefs.map((_, place) => [this.ask.digest(place), place]));
    return this.byDigest.get(digest);
  }

  /** The blocks, from which their labels are made. */
  blocks() {
    const found = [];
    this.briefs.forEach(({ isBlock, time }, place) => {
      if (!isBlock) return;
      const digest = this.ask.digest(place), height = this.ask.height(digest);
      if (height !== null) found.push({ digest, height, time });
    });
    return found;
  }

  // ---- units

  stretch(from, most) {
    const until = Math.min(this.count, from + most), units = [];
    for (let place = from; place < until; place++) units.push(this.unit(place));
    return { from, most, count: this.count, units };
  }

  unit(place) {
    const unit = this.ask.unit(place), { journal } = this.briefs[place], blocks = journal === null ? undefined : this.finalWith.get(journal);
    const tags = [...(unit.tags ?? []), ...(blocks ? [{ kind: "final", blocks }] : [])];
    return { ...unit, place, tags, isFinal: this.isFinal.has(unit.digest) };
  }

  /** A unit with those that cite it; null where there is none. */
  unitOf(digest) {
    const place = this.placeOf(digest);
    if (place === undefined) return null;
    const { creator } = this.briefs[place], citing = [];
    for (let other = 0; other < this.count && citing.length <= CITING; other++) {
      if (this.ask.seen(other, creator) === digest) citing.push(this.named(other));
    }
    const unit = this.unit(place);
    const sees = unit.panorama.map((seen) => (this.placeOf(seen) === undefined ? null : this.named(this.placeOf(seen))));
    return { ...unit, sees, citing: citing.slice(0, CITING), isMore: citing.length > CITING };
  }

  named(place) {
    const { creator, seq } = this.briefs[place];
    return { digest: this.ask.digest(place), creator, seq, place };
  }

  /**
   * The unit that is asked for, or null: a digest or its beginning, `1#20` for validator 1's number 20, `height 7` for a
   * final block, `validator 3` for that validator's next unit from a place on.
   */
  find(text, from) {
    const place = this.placeFound(text.trim().toLowerCase(), from);
    return place >= 0 && place < this.count ? this.named(place) : null;
  }

  placeFound(text, from) {
    const lane = /^(\d+)#(\d+)$/.exec(text), height = /^height (\d+)$/.exec(text), who = /^validator (\d+)$/.exec(text);
    if (lane) return this.briefs.findIndex(({ creator, seq }) => creator === Number(lane[1]) && seq === BigInt(lane[2]));
    if (who) return this.nextOf(Number(who[1]), from);
    if (height) return this.placeOf(this.finals.find((final) => final.height === Number(height[1]))?.block) ?? -1;
    if (!/^[0-9a-f]{4,64}$/.test(text)) return -1;
    this.placeOf(text);
    for (const [digest, place] of this.byDigest) if (digest.startsWith(text)) return place;
    return -1;
  }

  // The validator's next unit behind a place, or its first one.
  nextOf(validator, from) {
    const isOf = ({ creator }) => creator === validator, next = this.briefs.findIndex((brief, place) => place > from && isOf(brief));
    return next >= 0 ? next : this.briefs.findIndex(isOf);
  }
}

// What a cell becomes with one more unit, as long as nothing is wrong.
function oneMore(cell) {
  return cell === NONE ? ONE : cell === ONE ? BOTH : cell;
}

// Several rounds as one column: what is wrong in one of them is shown, else what is so in most.
function joinedRounds(rounds) {
  if (rounds.length === 1) return rounds[0];
  const cells = new Uint8Array(rounds[0].cells.length);
  cells.forEach((_, who) => {
    cells[who] = joinedCell(rounds.map((each) => each.cells[who]));
  });
  return { ...rounds[0], cells };
}

function joinedCell(cells) {
  const worst = Math.max(...cells), counts = [0, 0, 0];
  if (worst > BOTH) return worst;
  for (const cell of cells) counts[cell]++;
  return counts.indexOf(Math.max(...counts));
}
