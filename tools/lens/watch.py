"""`lens.py watch LOG`: follows the log of a node that runs, on one screen that refreshes, or a line of JSON a refresh.

What is final and who is faulty is the program's word: its `replay` is run again when there are new entries, and for a
tenth of the time at most. Ages compare this machine's clock with the times of units, which are the nodes' clocks.

Finality has halted once nothing became final for so long as `--halt` says, or nothing can any more: the faulty weigh more
than the threshold, a limit is met, or the instance has ended. The watch says so, and ends with status 3.
"""
import collections
import json
import os
import sys
import time

from lens.draw import write_new
from lens.graph import Reading
from lens.log import InputError, LogReader, short
from lens.program import ProgramError, before_limit, differences, need_program
from lens.show import counted, listed, need_text

WINDOW = 10.0  # seconds over which units a second are counted
SHARE = 10  # the program may take the time of one run in so many
CUT_FOR = 5.0  # seconds after which a cut entry is torn and not one that is being written
SHOWN_WAITS = 8
HALTED = 3  # the status of a watch that ends since finality has halted


class Follower:
    """A log that grows: what of it was read, and the own reading of its journal."""

    def __init__(self, path):
        self.path = path
        self.begin(None)

    def begin(self, inode):
        """Starts from the first byte, as at first and where the file was replaced by another one."""
        self.inode, self.got, self.cut_since = inode, 0, None
        self.reader, self.reading = LogReader(self.path), None

    def gained(self):
        """The bytes that the file has gained since the last time."""
        try:
            with open(self.path, "rb") as file:
                known = os.fstat(file.fileno())
                if known.st_ino != self.inode or known.st_size < self.got:
                    self.begin(known.st_ino)
                file.seek(self.got)
                return file.read()
        except OSError as error:
            raise InputError(self.path, (error.strerror or str(error)).lower()) from error

    def follow(self, moment):
        """Reads what the file has gained. `moment` is a monotonic clock's."""
        data = self.gained()
        self.got += len(data)
        self.reader.feed(data)
        for entry in self.reader.entries():
            self.reading = self.reading or Reading(self.reader.config)
            self.reading.take(entry)
        if self.reading is None and self.reader.config is not None:
            self.reading = Reading(self.reader.config)
        if not self.reader.pending:
            self.cut_since = None
        elif data or self.cut_since is None:
            self.cut_since = moment

    def torn(self, moment):
        """The first byte of an entry that has been cut for a while; a node that writes one just now leaves none."""
        cut = self.cut_since is not None and moment - self.cut_since >= CUT_FOR
        return self.reader.at if cut else None


class Judge:
    """The program's report on the log, asked for again when there is more of it and enough time has gone by."""

    def __init__(self, program):
        self.program, self.next = program, 0.0
        self.report, self.of, self.entries, self.differing = None, None, 0, []

    def judge(self, follower, moment):
        """Runs the program, unless it is too soon or nothing is new."""
        reading, reader = follower.reading, follower.reader
        if reading is None or moment < self.next or (reader.place == self.entries and self.of is reading):
            return
        began = time.monotonic()
        self.report = self.program.replay(before_limit(follower.path, reading, reader.at))
        self.entries, self.of = reader.place, reading
        self.differing = [] if reading.limit else differences(reading, self.report)
        self.next = moment + SHARE * (time.monotonic() - began)


class Rate:
    """Settled units a second, over the last seconds of the watch."""

    def __init__(self):
        self.marks = collections.deque()

    def mark(self, moment, units):
        """The rate at this moment, or None at the first one."""
        if self.marks and units < self.marks[-1][1]:
            self.marks.clear()
        self.marks.append((moment, units))
        while len(self.marks) > 2 and moment - self.marks[0][0] > WINDOW:
            self.marks.popleft()
        since, before = self.marks[0]
        return round((units - before) / (moment - since), 2) if moment > since else None


def final_state(report, reading, now):
    """The last final block with its age, and how many rounds have begun since its own."""
    if not report.finals:
        return None
    final = report.finals[-1]
    node, least = reading.nodes.get(final.digest), reading.config.least
    if node is None:
        raise ProgramError(f"the program says that {short(final.digest)} is final, and the lens doesn't know it")
    rounds, age = (now >> least) - (node.unit.time >> least), now - node.unit.time
    return {"height": final.height, "digest": final.digest.hex(), "age_ms": age, "rounds_without": rounds}


def halted_text(state, reading, after):
    """Why finality has halted, or None. `after` is how many seconds may go by, or None for any."""
    if state.get("exceeded") is not None:
        return f"faulty validators of weight {state['exceeded']} exceed the threshold: nothing more becomes final"
    if state["limit"] is not None:
        return f"{state['limit']}: the program takes no more"
    if after is None or "final" not in state:
        return None
    final, begin = state["final"], min((node.unit.time for node in reading.order), default=None)
    if final and final["height"] == reading.config.end:
        return f"the instance has ended with height {final['height']}"
    age = final["age_ms"] if final else None if begin is None else state["time_ms"] - begin
    if age is None or age <= 1000 * after:
        return None
    since = f"since height {final['height']}, whose block is {span_text(age)} old" if final else f"for {span_text(age)}"
    return f"nothing became final {since}"


def validator_states(reading, faulty, now):
    """Each validator: its units, and for how long it has said nothing."""
    counts, latest = collections.Counter(), {}
    for node in reading.order:
        who, at = node.unit.creator, node.unit.time
        counts[who] += 1
        latest[who] = max(at, latest.get(who, at))
    for who, weight in enumerate(reading.config.weights):
        silent = now - latest[who] if who in latest else None
        yield {"validator": who, "weight": weight, "units": counts[who], "silent_ms": silent, "faulty": who in faulty}


def wait_states(reading):
    """What parked units wait for and the log lacks: how many needs, and the first of them."""
    needs = [need for need in reading.waiting if not (need[0] == "unit" and need[1] in reading.nodes)]
    return {"needs": len(needs), "first": [need_text(need) for need in needs[:SHOWN_WAITS]]}


class Watch:
    """What is shown at each refresh."""

    def __init__(self, arguments):
        self.arguments, self.rate = arguments, Rate()
        self.follower, self.judge = Follower(arguments.log), Judge(need_program(arguments.program))

    def state(self):
        """The node's state now, as it goes into a line of JSON."""
        moment, now = time.monotonic(), self.arguments.now
        now = int(time.time() * 1000) if now is None else now
        self.follower.follow(moment)
        self.judge.judge(self.follower, moment)
        reader, reading, report = self.follower.reader, self.follower.reading, self.judge.report
        state = {"time_ms": now, "log": str(self.arguments.log), "bytes": self.follower.got, "entries": reader.place}
        state |= {"torn": self.follower.torn(moment), "limit": reading.limit if reading else None}
        if reading is None or report is None or self.judge.of is not reading:
            return state
        state |= report.counts | {"judged_entries": self.judge.entries, "final": final_state(report, reading, now)}
        state |= {"faulty": report.faulty, "exceeded": report.exceeded, "waits": wait_states(reading)}
        state["units_a_second"] = self.rate.mark(moment, len(reading.order))
        state["validators"] = list(validator_states(reading, report.faulty, now))
        state["halted"] = halted_text(state, reading, self.arguments.halt)
        return state | {"agrees": not self.judge.differing}


def span_text(milliseconds):
    """A span of time in its two greatest units."""
    if milliseconds is None:
        return "-"
    if milliseconds < 0:
        return f"-{span_text(-milliseconds)}"
    if milliseconds < 10_000:
        return f"{milliseconds / 1000:.1f} s"
    seconds = milliseconds // 1000
    for size, name, smaller, part in ((86400, "d", 3600, "h"), (3600, "h", 60, "min"), (60, "min", 1, "s")):
        if seconds >= size:
            return f"{seconds // size} {name} {seconds % size // smaller} {part}"
    return f"{seconds} s"


def final_line(state, least):
    final = state["final"]
    if final is None:
        return "nothing yet"
    age, rounds = span_text(final["age_ms"]), counted(final["rounds_without"], "round")
    return f"height {final['height']}  {final['digest'][:8]}  {age} old, {rounds} of {1 << least} ms since"


def parked_line(state):
    waits = state["waits"]
    if not state["parked"]:
        return "0"
    return f"{state['parked']}; they wait for {waits['needs']} that the log lacks: {listed(waits['first'])}"


def faulty_line(state):
    faulty = listed(map(str, state["faulty"]))
    if state["exceeded"] is None:
        return faulty
    return f"{faulty}, of weight {state['exceeded']}, ABOVE the threshold: nothing more becomes final"


def warnings(state):
    """What isn't there on a good day."""
    if state["halted"] is not None:
        yield f"HALTED   {state['halted']}"
    if state["torn"] is not None:
        yield f"torn     at {state['torn']}: the last entry has been cut for a while"
    if state["limit"] is not None:
        yield f"limit    {state['limit'].removeprefix('limit ')}: the program stops there"
    if state["judged_entries"] < state["entries"]:
        yield f"judged   up to entry {state['judged_entries']}"
    if not state["agrees"]:
        yield "DIFFERS  the own reading differs from the program"


def screen(state, reading):
    """The state as lines of one screen."""
    clock = time.strftime("%Y-%m-%d %H:%M:%S", time.localtime(state["time_ms"] / 1000))
    yield f"{state['log']}: {state['entries']} entries, {state['bytes']} bytes   {clock}"
    if "final" not in state:
        yield "waits for the first entries"
        return
    pace = "-" if state["units_a_second"] is None else state["units_a_second"]
    others = ", ".join(f"{state[name]} {name}" for name in ("dropped", "refused", "repeats"))
    yield f"final    {final_line(state, reading.config.least)}"
    yield f"units    {state['units']} settled, {pace} a second; {others}"
    yield f"parked   {parked_line(state)}"
    yield f"faulty   {faulty_line(state)}"
    yield from warnings(state)
    yield "validator  weight  units  silent for"
    for each in state["validators"]:
        mark = "  FAULTY" if each["faulty"] else ""
        yield f"{each['validator']:>9}  {each['weight']:>6}  {each['units']:>5}  {span_text(each['silent_ms'])}{mark}"


def each_metric(state):
    """What Prometheus is told: a name, what it is, and each value with its labels."""
    final = state["final"] or {}
    yield "entries", "entries of the log", [("", state["entries"])]
    yield "units", "settled units", [("", state["units"])]
    yield "parked", "units that wait for others", [("", state["parked"])]
    yield "needs", "what waiting units need and the log lacks", [("", state["waits"]["needs"])]
    yield "final_height", "height of the last final block, -1 without one", [("", final.get("height", -1))]
    yield "final_age_seconds", "age of the last final block", [("", final["age_ms"] / 1000)] if final else []
    yield "halted", "1 where finality has halted", [("", int(state["halted"] is not None))]
    yield "reading_differs", "1 where the lens reads another state than the program", [("", int(not state["agrees"]))]
    for name, what in (("faulty", "1 where the validator is faulty"), ("validator_units", "units of the validator")):
        key = {"faulty": "faulty", "validator_units": "units"}[name]
        yield name, what, [(f'{{validator="{one["validator"]}"}}', int(one[key])) for one in state["validators"]]


def metrics_text(state):
    """The state as a text for Prometheus. Without an answer of the program it says no more than that."""
    lines = [
        f"# HELP highway_judged 1 where the program has answered\n# TYPE highway_judged gauge\nhighway_judged {int('final' in state)}"
    ]
    for name, what, values in each_metric(state) if "final" in state else ():
        lines.append(f"# HELP highway_{name} {what}\n# TYPE highway_{name} gauge")
        lines += [f"highway_{name}{labels} {value}" for labels, value in values]
    return "\n".join(lines) + "\n"


def show(watch, arguments):
    """Shows one refresh, and answers the state."""
    state = watch.state()
    if arguments.metrics and arguments.metrics != "-":
        write_new(arguments.metrics, metrics_text(state), True)
    if arguments.metrics == "-":
        print(metrics_text(state), end="", flush=True)
    elif arguments.json:
        print(json.dumps(state), flush=True)
    else:
        clear = "\x1b[H\x1b[2J" if sys.stdout.isatty() else ""
        print(clear + "\n".join(screen(state, watch.follower.reading)) + ("" if clear else "\n"), flush=True)
    return state


def run(arguments):
    """Shows the node's state again and again. Answers 0 at the end, which an interrupt brings too; 3 where `--halt` is
    given and finality has halted, with a word on standard error.
    """
    watch, shown = Watch(arguments), 0
    while True:
        began = time.monotonic()
        halted = show(watch, arguments).get("halted")
        shown += 1
        if halted and arguments.halt is not None:
            print(f"lens: halted: {halted}", file=sys.stderr)
            return HALTED
        if shown == arguments.count:
            return 0
        time.sleep(max(0.0, began + arguments.every - time.monotonic()))
