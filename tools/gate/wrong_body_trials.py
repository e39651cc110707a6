"""How many pages of a crate are tried in few checks, and cheap ones.

A function's proof cites what the others state, and not their bodies. So pages that change the bodies of different
functions can share a check: a page is refused only if a function that it changes is refused for itself. Pages that meet
in a function go into different checks, and so does a page that changes more than bodies; of that one the functions are
asked that most likely see the change.

A check is asked only for the functions that its pages change, with all other bodies left out (stubbed_bodies.py). Where
that gives no clear answer on a page, the same functions are asked with what they call as it stands. There a function
whose callee is refused may not have been tried, so its page goes into the next check. What isn't refused so is tried
alone, by a check of the whole crate: that a page is proved is said by such a check alone."""

from dataclasses import dataclass, field

from gate.page_reach import first_asked
from gate.rattle_pages import applied, is_named, paths_of, place_of
from gate.stubbed_bodies import stubbed

REFUSED, PROVED, FAULTY, UNTRIED = "refused", "proved", "faulty", "untried"


@dataclass
class Case:
    """A page that is tried: where it stands, the functions that are asked about it, those to ask if none of them is
    refused, what kind of check it needs next, and what came of it."""

    page: object
    place: object
    keys: set = field(default_factory=set)
    further: set = field(default_factory=set)
    is_alone: bool = False
    is_with_called: bool = False
    is_whole: bool = False
    kind: str = ""
    said: str = ""

    def settle(self, kind, said):
        self.kind, self.said = kind, said

    def is_well(self):
        """Returns whether the page is refused, or proved where it says why it is right."""
        return self.kind == (PROVED if self.page.why_right else REFUSED)


@dataclass
class Trial:
    """The cases of one crate, and how a check of it with other texts is made."""

    crate: object
    check: object
    say: object = print
    cases: list = field(default_factory=list)

    def add(self, page):
        """Takes a page to be tried; one that doesn't apply is settled at once."""
        _, bad, why = applied(self.crate.folder, [page]) if not page.fault else (None, page, page.fault)
        if bad:
            case = Case(page, None)
            case.settle(FAULTY, why)
        else:
            case = self.case_of(page)
        self.cases.append(case)

    def case_of(self, page):
        """Returns a page as it is tried first."""
        place = place_of(page, self.crate.folder)
        if place.is_beyond_bodies:
            keys, further = first_asked(page, place, self.crate)
            return Case(page, place, keys, further, is_alone=True, is_whole=not keys)
        return Case(page, place, place.functions)

    def left(self):
        return [it for it in self.cases if not it.kind]

    def run(self):
        """Tries each page, in as few checks as hold them."""
        while self.left():
            batch = self.batch()
            self.judge(batch, *self.answer(batch))

    def answer(self, batch):
        """Returns what the next check says of its pages, and whether bodies were left out in it."""
        texts, gone, only = applied(self.crate.folder, [it.page for it in batch])[0], [], []
        keys = set().union(*[it.keys for it in batch])
        if not batch[0].is_whole:
            only = sorted(set().union(*[self.paths(it) for it in batch]))
        if not batch[0].is_whole and not batch[0].is_with_called:
            texts, gone = stubbed(self.crate, texts, keys)
        answer = self.check(texts, only, gone)
        how = f"{len(only)} functions, {len(gone)} left out" if only else "the whole crate"
        pages = " ".join(it.page.name for it in batch)
        self.say(f"a check of {how}: {answer.seconds:.0f} processor seconds: {pages}")
        return answer, bool(gone)

    def paths(self, case):
        """Returns how a check is asked for the functions of a page."""
        return {path for key in case.keys for path in paths_of(key, self.crate.name, self.crate.folder)}

    def batch(self):
        """Returns the pages of the next check: those that change most functions first, so that few are left over."""
        order = sorted(self.left(), key=lambda it: (it.is_whole, it.is_with_called, it.is_alone, -len(it.keys)))
        batch, taken = order[:1], set(order[0].keys)
        for case in [] if order[0].is_alone else order[1:]:
            if case.is_alone or case.is_with_called != order[0].is_with_called or case.keys & taken:
                continue
            if applied(self.crate.folder, [it.page for it in [*batch, case]])[1]:
                continue
            batch.append(case)
            taken |= case.keys
        return batch

    def judge(self, batch, answer, is_stubbed=False):
        """Settles the pages of a check on which its answer is clear, and has the others tried in another one."""
        first = batch[0]
        if first.is_whole:
            judge_alone(first, answer)
        elif answer.unknown:
            self.ask_all([it for it in batch if answer.unknown in self.paths(it)] or batch)
        elif answer.is_proved:
            self.ask_all(batch)
        elif is_stubbed:
            self.judge_stubbed(batch, answer)
        elif not answer.is_verdict and len(batch) > 1:
            self.part(batch, answer)
        elif not answer.is_verdict:
            judge_alone(first, answer)
        elif first.place.is_beyond_bodies:
            self.judge_first_asked(first, answer)
        else:
            self.judge_in_company(batch, answer)

    def ask_all(self, cases):
        """Has pages tried in the whole crate, each alone, or first by further functions where some may see the change."""
        for it in cases:
            it.is_alone, it.is_whole = True, not it.further
            it.keys, it.further = it.further or it.keys, set()

    def judge_stubbed(self, batch, answer):
        """Settles the pages of which a function is refused for itself, with a goal of its own that is open. If nothing
        of a page is refused, the whole crate is asked. The others are tried again, and if no page of a check was
        settled, with what their functions call."""
        if not answer.is_verdict and len(batch) > 1:
            self.part(batch, answer)
            return
        unclear = []
        for case in batch:
            own = self.own(case, {name for name, goal in answer.refused.items() if goal})
            if answer.is_verdict and own and not answer.unread:
                case.settle(REFUSED, words_of(own, answer.refused[own]))
            elif answer.is_verdict and self.is_only_proved(case, answer):
                self.ask_all([case])
            else:
                unclear.append(case)
        for case in unclear if len(unclear) == len(batch) else []:
            case.is_with_called = True

    def is_only_proved(self, case, answer):
        others = {*answer.refused, *answer.resting, *answer.undecided}
        return bool(self.own(case, answer.proved)) and not self.own(case, others)

    def part(self, batch, answer):
        """Has the pages on whose lines a check stopped tried alone, or all where no line tells whose it was."""
        blamed = [it for it in batch if any(is_near(it.place.lines, line) for line in answer.error_lines)]
        for it in blamed or batch:
            it.is_alone = True

    def judge_first_asked(self, case, answer):
        """Settles a page that changes more than bodies if a function that was asked about it is refused."""
        if answer.refused or answer.unread:
            judge_alone(case, answer)
        else:
            self.ask_all([case])

    def judge_in_company(self, batch, answer):
        """Settles the pages of which a function is refused for itself. The others go into other checks: the next, if a
        function rests on one that is refused, or that of the whole crate, if it is proved."""
        for case in batch:
            own = self.own(case, answer.refused)
            if own:
                case.settle(REFUSED, words_of(own, answer.refused[own]))
            elif case.is_alone or self.is_only_proved(case, answer):
                self.ask_all([case])
            elif not self.own(case, answer.resting):
                case.is_alone = True
        if not any(it.kind or it.is_alone for it in batch):
            for it in batch:
                it.is_alone = True

    def own(self, case, told):
        """Returns the first function of those that the check told of that is asked about the page."""
        for name in sorted(told):
            for key in case.keys:
                if is_named(name, key, self.crate.name, self.crate.folder):
                    return name
        return None


def is_near(lines, line):
    return any(file == line[0] and abs(number - line[1]) <= 3 for file, number in lines)


def words_of(function, goal):
    return f"`{function}`, goal `{goal}`" if goal else f"`{function}`"


def judge_alone(case, answer):
    """Settles a page by the answer of a check that held it alone, or that is proved with it."""
    if answer.is_proved:
        case.settle(PROVED, "the crate is still proved with it")
    elif answer.is_verdict and answer.unread:
        case.settle(FAULTY, f"the prover can't read the changed text: {answer.unread[:160]}")
    elif answer.is_verdict and answer.refused:
        name = sorted(answer.refused)[0]
        case.settle(REFUSED, words_of(name, answer.refused[name]))
    elif answer.is_verdict:
        case.settle(REFUSED, "a lemma of proofs/")
    elif answer.is_at_limit:
        case.settle(REFUSED, f"`{sorted(answer.undecided or ['the prover'])[0]}`, by a limit of the prover alone")
    elif answer.is_uncompiled:
        case.settle(FAULTY, f"it doesn't compile: {answer.complaint}")
    else:
        case.settle(UNTRIED, answer.complaint)
