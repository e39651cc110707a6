"""Tries the wrong bodies of crates/NAME/must-fail/, or says whether all that was tried still holds.

  tools/wrong_bodies.py [NAME..]     tries the pages of these crates (of all, if none is named) that their records
                                     don't have as they are now, and writes the records
  tools/wrong_bodies.py --current    proves nothing: says in seconds whether each page still applies and each record is
                                     current, and fails with the names of the crates that have to be tried again

A trial begins with what `rt check` of the crate kept in its out/, if it kept anything, and needs the libraries below
it built: it says which are missing. A page that is proved, doesn't apply or doesn't compile is an error with its name.
A crate that can't be tried stops no other, and each crate's record is written when its pages are through, or when this
is ended. Crates are begun in the order of the names given, or else those with most pages first, so that several
processors end together. What another toolchain tried is tried again; --current only tells of it.

Examples:
  tools/wrong_bodies.py hw_endorse hw_forks
  tools/wrong_bodies.py --anew --jobs 4
"""

import argparse
import os
import signal
import sys
import time
from concurrent.futures import ThreadPoolExecutor

from gate import tried_record
from gate.rattle_checks import Bench, CheckError, Toolchain, end_all, missing_below
from gate.rattle_pages import applied, pages_of
from gate.rattle_sources import SourceError, crates_of
from gate.wrong_body_trials import UNTRIED, Trial

ROOT = os.path.dirname(os.path.dirname(os.path.dirname(os.path.abspath(__file__))))


def arguments(words):
    parser = argparse.ArgumentParser(description=__doc__, formatter_class=argparse.RawDescriptionHelpFormatter)
    parser.add_argument("names", nargs="*", metavar="NAME", help="a crate of crates.txt")
    parser.add_argument("--current", action="store_true", help="say whether pages apply and records are current")
    parser.add_argument("--allow-untried", action="store_true", help="with --current: pages never tried are no fault")
    parser.add_argument("--anew", action="store_true", help="try all pages, whatever is recorded")
    parser.add_argument("--jobs", type=int, default=1, metavar="N", help="processors: so many checks side by side")
    parser.add_argument("--root", default=ROOT, help=argparse.SUPPRESS)
    given = parser.parse_args(words)
    if given.jobs < 1:
        parser.error("--jobs takes a number from 1 on")
    if given.current and given.anew:
        parser.error("--current tries nothing, so it doesn't go with --anew")
    if given.allow_untried and not given.current:
        parser.error("--allow-untried goes with --current")
    return given


def chosen(crates, names):
    """Returns the named crates, or all that have pages."""
    lacking = [it for it in names if it not in crates]
    if lacking:
        raise SourceError(f"{lacking[0]} is no crate of crates.txt")
    every = [crates[it] for it in names] if names else list(crates.values())
    return [it for it in every if os.path.isdir(it.pages_folder())]


def stop_on_lost(root, crates):
    """Refuses pages in a folder that crates.txt doesn't list."""
    for name in sorted(os.listdir(f"{root}/crates")):
        if name not in crates and os.path.isdir(f"{root}/crates/{name}/must-fail"):
            raise SourceError(f"crates/{name} has pages in must-fail/, and crates.txt doesn't list it")


def look(crate, known, allow_untried=False):
    """Returns what is wrong with a crate's pages and record, as lines, and whether it has to be tried again. Where pages
    that were never tried are allowed, only those that were recorded are asked about."""
    pages, faults = pages_of(crate)
    for page in pages:
        why = page.fault or applied(crate.folder, [page])[2]
        if why:
            faults.append(f"{crate.name}/{page.name}: {why}")
    base, record = tried_record.base_of(crate, known), tried_record.read(crate)
    old = tried_record.stale(pages, record, base)
    if allow_untried:
        old = [it for it in old if it in record.pages]
    lost = tried_record.gone(pages, record)
    if old:
        why = tried_record.why_stale(record, base)
        faults.append(f"{crate.name}: {len(old)} of {len(pages)} pages have to be tried again ({why}): {' '.join(old)}")
    elif lost:
        faults.append(f"{crate.name}: its record has pages that are gone: {' '.join(lost)}")
    return faults, bool(old or lost)


def tell_of_kits(crates):
    """Says which records were made with another toolchain. They stay current, since their sources are the same."""
    try:
        kit = Toolchain().line()
    except CheckError:
        return
    others = [it.name for it in crates if tried_record.read(it).kit not in ("", kit)]
    if others:
        print(f"note: tried with another toolchain than {kit} (--anew tries them with this one): {' '.join(others)}")


def tell_of_untried(crates):
    """Says how many pages of which crates were never tried."""
    untried = {it.name: sum(page.name not in tried_record.read(it).pages for page in pages_of(it)[0]) for it in crates}
    lacking = [f"{name} {count}" for name, count in untried.items() if count]
    if lacking:
        print(f"wrong bodies: never tried, by crate: {', '.join(lacking)}")


def current(crates, allow_untried=False):
    """Says whether each page applies and each record is current."""
    known, faults, again = {}, [], []
    if allow_untried:
        tell_of_untried(crates)
    for crate in crates:
        found, is_old = look(crate, known, allow_untried)
        faults += found
        again += [crate.name] * is_old
    for it in faults:
        print(it)
    tell_of_kits(crates)
    if again:
        print(f"wrong bodies: to be tried again, by tools/wrong_bodies.py NAME..: {' '.join(again)}")
    count = sum(len(pages_of(it)[0]) for it in crates)
    if not faults:
        print(f"wrong bodies: {count} pages of {len(crates)} crates apply, and their records are current")
    return 1 if faults else 0


class Run:
    """One run that tries pages: the toolchain, the sums of interfaces, and what was not as it should be."""

    def __init__(self, given):
        self.toolchain, self.known, self.errors, self.benches = Toolchain(), {}, [], []
        self.kit, self.anew = self.toolchain.line(), given.anew

    def try_crate(self, crate, jobs):
        """Tries what isn't current of a crate's pages, writes its record, and returns the lines to print."""
        began = time.monotonic()
        pages, faults = pages_of(crate)
        self.errors += faults
        base, record = tried_record.base_of(crate, self.known), tried_record.read(crate)
        is_whole = self.anew or record.kit != self.kit
        old = {it.name for it in pages} if is_whole else {*tried_record.stale(pages, record, base)}
        bench = Bench(crate, self.toolchain, jobs)
        trial = Trial(crate, bench.check, lambda said: print(f"{crate.name}: {said}", flush=True))
        for page in pages:
            if page.name in old:
                trial.add(page)
        self.benches.append(bench)
        try:
            if trial.left():
                self.make_ready(crate)
                with bench:
                    trial.run()
        finally:
            self.keep(crate, base, record, trial, pages)
        if not old:
            return [f"{crate.name}: {len(pages)} pages, all current"]
        clock = time.monotonic() - began
        spent = f"{bench.checks} checks, {bench.seconds:.0f} processor seconds, {clock:.0f} by the clock"
        return [f"{crate.name}: {len(old)} of {len(pages)} pages tried: {spent}", *self.tell(crate, trial)]

    def make_ready(self, crate):
        """Sees that the libraries below a crate are built, and as new as their sources."""
        missing = missing_below(crate)
        if missing:
            how = f"run rt check in crates/{crate.name} first, or rt lib in their folders"
            raise CheckError(f"libraries that are not built: {' '.join(missing)}: {how}")
        self.toolchain.renew(crate)

    def keep(self, crate, base, record, trial, pages):
        """Writes the record: what was well now, and what stays current of what was recorded."""
        if tried_record.base_of(crate, {}) != base:
            why = "files changed while it was tried, so nothing is recorded: run this again"
            self.errors.append(f"{crate.name}: {why}")
            return
        tried = {it.page.name for it in trial.cases if it.kind not in ("", UNTRIED)}
        verdicts = {}
        for page in pages:
            sum = tried_record.checksum(page, base)
            if page.name not in tried and record.pages.get(page.name, ("",))[0] == sum:
                verdicts[page.name] = record.pages[page.name]
        for case in trial.cases:
            if case.is_well():
                said = "nothing: it is right, as it says" if case.page.why_right else case.said
                verdicts[case.page.name] = tried_record.checksum(case.page, base), said
        if verdicts or record.pages:
            tried_record.write(crate, self.kit, base, verdicts)

    def tell(self, crate, trial):
        """Returns a line for each page that was tried, and notes those that are not as they should be."""
        lines = []
        for case in trial.cases:
            name = f"{crate.name}/{case.page.name}"
            if case.is_well():
                lines.append(f"  {case.page.name}: {case.kind}: {case.said}")
            else:
                more = ", though it says why it is right" if case.page.why_right else ""
                self.errors.append(f"{name}: {case.kind.upper()}{more}: {case.said}")
        return lines


def try_all(crates, given):
    """Tries the crates, as many side by side as there are processors to use."""
    run = Run(given)
    lanes = max(1, min(given.jobs, len(crates)))

    def one(crate):
        try:
            print("\n".join(run.try_crate(crate, max(1, given.jobs // lanes))), flush=True)
        except Exception as error:  # whatever it is, the other crates are tried
            run.errors.append(f"{crate.name}: NOT TRIED: {type(error).__name__}: {error}")

    with ThreadPoolExecutor(lanes) as pool:
        begun = [pool.submit(one, crate) for crate in crates]
        try:
            for it in begun:
                it.result()
        except BaseException:
            end_all()
            pool.shutdown(wait=False, cancel_futures=True)
            raise
    for it in run.errors:
        print(f"error: {it}")
    checks, seconds = sum(it.checks for it in run.benches), sum(it.seconds for it in run.benches)
    spent = f"{checks} checks, {seconds:.0f} processor seconds"
    print(f"wrong bodies: {len(crates)} crates, {spent}, {len(run.errors)} errors")
    return 1 if run.errors else 0


def main(words):
    given = arguments(words)
    signal.signal(signal.SIGTERM, lambda *_: sys.exit(143))
    try:
        crates = crates_of(given.root)
        stop_on_lost(given.root, crates)
        named = chosen(crates, given.names)
        if not given.names and not given.current:
            named.sort(key=lambda it: -len(pages_of(it)[0]))
        return current(named, given.allow_untried) if given.current else try_all(named, given)
    except (CheckError, SourceError, OSError) as error:
        print(f"wrong bodies: {error}", file=sys.stderr)
        return 2
    finally:
        end_all()
