#!/usr/bin/env python3
"""The page in a real Chromium, over nginx, before the built desk.

    python3 page/test/page_test.py [--wrong] [--large] [--seconds N] [--pictures FOLDER] [--readme FILE] [CASE ..]

Each case begins with a desk of the small world (`world.py`), under the rules of `examples/policy.toml`. SANDESK names
another program than the one that is built in the repository. It needs Debian's `chromium` and `nginx` (or `nginx-light`),
and Python. Where one of these is not there it says so, and all cases are left out.

--wrong          each case over the wrong page of `wrong.py` that it has to refuse, in place of the page itself
--large          figures for 1,024, 16,384 and 65,536 paths, which have to be drawn within two seconds
--seconds        how long a text is waited for, 20 if it is not said; with --wrong a quarter of it
--pictures       writes pictures of the views, and of what failed
--readme         writes the picture of the README
CASE             only these cases

The last line is `N passed, N failed, N left out`; the status is 1 where one failed. It listens on free loopback ports,
and ends just the processes that it started.
"""

import argparse
import json
import pathlib
import re
import shutil
import sys
import time

sys.dont_write_bytecode = True
sys.path.insert(0, str(pathlib.Path(__file__).resolve().parent))

import browser  # noqa: E402
import cases  # noqa: E402
import figures  # noqa: E402
import plan_cases  # noqa: E402,F401
import stage as stages  # noqa: E402
import wrong  # noqa: E402

AXE = """axe.run(document, { resultTypes: ['violations', 'incomplete'] }).then(is => ({ passes: is.passes.length,
    violations: is.violations.map(one => [one.id, one.nodes.map(node => node.target.join(' ') + ' ' + (node.failureSummary || '')).slice(0, 4)]),
    incomplete: is.incomplete.map(one => one.id) }))"""


class Page(browser.Browser):
    """A browser whose views are audited by axe-core, where it is there."""

    def __init__(self, axe, seconds):
        super().__init__(seconds)
        self.is_whole = True
        self.audits = []
        self.axe = axe and self.js(axe)

    def forget(self, home):
        """The page is as in a new tab: nothing is kept, and it is light and wide."""
        self.media()
        self.width()
        self.go(home)
        self.js("sessionStorage.clear()")
        self.go("about:blank")

    def audit(self, what):
        """axe-core finds no fault in what is shown: all its rules, those of best practice too."""
        if not self.axe:
            return
        self.js(self.axe)
        told = self.js(AXE)
        self.audits.append((what, told))
        browser.check(not told["violations"], f"axe, {what}: {json.dumps(told['violations'], indent=1)}")


def words_of(function):
    """The name of a case, as words."""
    return function.__name__.replace("_", " ")


def play(page, stage, function):
    """Plays a case over a fresh desk. What fails is given as a text, else None."""
    try:
        stage.begin()
        page.forget(stage.home)
        function(page, stage)
        return None
    except (browser.Failed, AssertionError) as fault:
        return str(fault)


def play_all(page, stage, chosen, pictures):
    """Plays cases over the page, and gives how many failed."""
    failed = 0
    page.is_whole = len(chosen) == len(cases.CASES)
    for function in chosen:
        begun, fault = time.time(), play(page, stage, function)
        failed += fault is not None
        print(f"{'ok     ' if fault is None else 'FAILED '} {words_of(function)} ({time.time() - begun:.1f} s){': ' + fault if fault else ''}", flush=True)
        if pictures:
            page.picture(pictures / f"{'failed-' if fault else ''}{function.__name__}.png")
    for what, told in page.audits:
        print(f"axe: {what}: {told['passes']} rules pass, none fails, to be looked at: {', '.join(told['incomplete']) or 'none'}")
    return failed


def play_wrong(page, stage, chosen, _pictures):
    """Plays each case over its wrong page, and gives how many passed there."""
    taken = 0
    page.seconds, page.is_whole = page.seconds / 4, False
    for function in chosen:
        edit = wrong.PAGES[function.__name__]
        begun, events = time.time(), len(page.events)
        stage.serve(edit)
        fault = play(page, stage, function)
        thrown = [json.dumps(one) for one in page.events[events:] if one.get("method") == "Runtime.exceptionThrown"]
        # A page that does not even start, or does not let in, shows nothing of the case.
        is_broken = any("SyntaxError" in one for one in thrown) or "activeElement?.id === 'token'" in (fault or "") or "nav').hidden === false" in (fault or "")
        taken += fault is None or is_broken
        word = "BROKEN " if is_broken else "refused" if fault else "TAKEN  "
        print(f"{word} {words_of(function)}: {edit[0]}: {edit[2][:60]!r} ({time.time() - begun:.1f} s){': ' + fault.splitlines()[0][:160] if fault else ''}", flush=True)
    stage.serve()
    return taken


def show(page, stage, path):
    """The picture of the README: what a plan does."""
    stage.begin()
    page.call("Emulation.setDeviceMetricsOverride", width=1000, height=740, deviceScaleFactor=1, mobile=False)
    cases.open_plan(page, stage, "t-bob", "CHG7", "Hosts that change: 1")
    page.picture(path, ".scroll.picture")
    size = path.stat().st_size
    print(f"{path}: {size} bytes")
    browser.check(size < 120000, f"the picture has {size} bytes")


def arguments():
    """The options and the cases that are chosen."""
    told = argparse.ArgumentParser(description=__doc__, formatter_class=argparse.RawDescriptionHelpFormatter)
    told.add_argument("--wrong", action="store_true")
    told.add_argument("--large", action="store_true")
    told.add_argument("--seconds", type=float, default=20)
    told.add_argument("--pictures", type=pathlib.Path)
    told.add_argument("--readme", type=pathlib.Path)
    told.add_argument("cases", nargs="*", metavar="CASE")
    told = told.parse_args()
    cases.CASES.sort(key=lambda one: one is cases.the_browser_finds_no_fault)  # which looks at all that went before
    names = {function.__name__: function for function in cases.CASES}
    unknown = [name for name in told.cases if name not in names]
    if unknown:
        sys.exit(f"no such case: {', '.join(unknown)}")
    return told, [names[name] for name in told.cases] or cases.CASES


def main():
    """Plays what is asked for, and gives the exit status."""
    told, chosen = arguments()
    if told.wrong and sorted(wrong.PAGES) != sorted(function.__name__ for function in cases.CASES):
        sys.exit(f"cases and wrong pages differ: {set(wrong.PAGES) ^ {one.__name__ for one in cases.CASES}}")
    missing = [name for name, path in {"chromium": browser.program(), "nginx": shutil.which("nginx")}.items() if not path]
    if missing:
        print(f"left out: there is no {' and no '.join(missing)} (apt-get install {' '.join(missing)})")
        print(f"0 passed, 0 failed, {len(chosen)} left out")
        return 0
    if told.pictures:
        told.pictures.mkdir(parents=True, exist_ok=True)
    axe = browser.axe()
    version = axe and re.search(r"axe v([0-9.]+)", axe)[1]
    print(f"axe-core {version}" if axe else "axe-core is not in this Chromium: its audits are left out", flush=True)
    stage, page = stages.Stage(), None
    try:
        page = Page(axe, told.seconds)
        failed = (play_wrong if told.wrong else play_all)(page, stage, chosen, told.pictures)
        played = len(chosen)
        if told.readme:
            show(page, stage, told.readme)
        if told.large:
            failed += figures.measure(page, stage, told.pictures)
            played += figures.NUMBER
    finally:
        if page:
            page.close()
        stage.close()
    print(f"{played - failed} passed, {failed} failed, 0 left out")
    return int(failed > 0)


if __name__ == "__main__":
    sys.exit(main())
