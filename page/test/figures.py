"""How long it takes until large worlds are drawn, and how much memory."""

import pathlib
import re
import time

import world
from browser import Failed

NUMBER, WITHIN, RUNS = 4, 2.0, 3
VIEWS = [
    ("#host/esx000", "1,024", "a host with 1,024 paths"),
    ("#plan/lose16384", "16,384", "a dry run that loses 16,384"),
    ("#plan/move16384", "16,384", "a dry run that loses 16,384 and gains 16,384"),
    ("#plan/lose65536", "65,536", "a dry run that loses 65,536"),
]
LONGEST = """window.longest = 0; gc(); new PerformanceObserver(list => {
    for (const one of list.getEntries()) window.longest = Math.max(window.longest, one.duration); }).observe({ type: 'longtask' })"""
PARTS = """Promise.all([import('./paths.js'), import('./picture.js')]).then(([paths, { picture }]) => {
    const some = Array.from({ length: 65536 }, (_, n) => ({ fabric: 'AB'[n & 1], initiator: 'i' + (n >> 8 & 127) + (n & 1), target: 't' + (n >> 1 & 15) + (n & 1),
        volume: 'v' + n % 509, lun: n % 509, host: 'h' + (n >> 10), change: '=-+'[n % 3] }));
    const begun = performance.now(), rows = paths.effects(some), middle = performance.now(), svg = picture(some, 't', 'd');
    return `effects ${Math.round(middle - begun)} ms (${rows.length} rows), picture ${Math.round(performance.now() - middle)} ms (${svg.querySelectorAll('path').length} strands)`; })"""


def renderer(page):
    """The most memory that a renderer of this browser has had, in MB."""
    found = [0]
    for path in pathlib.Path("/proc").glob("[0-9]*/cmdline"):
        try:
            words = path.read_bytes()
            if b"--type=renderer" in words and page.home.encode() in words:
                found.append(int(re.search(r"VmHWM:\s*(\d+)", (path.parent / "status").read_text())[1]) // 1000)
        except (OSError, TypeError):
            pass
    return max(found)


def drawn(page, stage, view, text):
    """Goes to a view from the one before, and gives the seconds until it is drawn, and the longest task in milliseconds."""
    page.go("about:blank")
    page.go(stage.home)
    page.until("document.activeElement?.id === 'token'")
    page.type("t-ada")
    page.key("Enter")
    page.until("document.querySelector('nav').hidden === false")
    page.js(LONGEST)
    begun = time.time()
    page.js(f"location.hash = '{view}'")
    page.until(f"document.querySelector('svg.paths') && document.body.innerText.includes('{text}')", 60)
    page.js("new Promise(done => requestAnimationFrame(() => setTimeout(done)))")
    return time.time() - begun, page.js("window.longest")


def measure(page, stage, pictures):
    """Prints the figures, and gives how many views were not drawn in time in their best run."""
    stage.begin()
    world.large(stage.desk)
    late = 0
    for view, text, words in VIEWS:
        try:
            runs = [drawn(page, stage, view, text) for _ in range(RUNS)]
        except Failed as fault:
            print(f"FAILED  large: {words}: {fault}")
            late += 1
            continue
        seconds, longest = [run[0] for run in runs], [run[1] for run in runs]
        is_late = min(seconds) > WITHIN
        late += is_late
        elements, strands = page.js("[document.querySelectorAll('*').length, document.querySelectorAll('svg path').length]")
        print(f"{'LATE   ' if is_late else 'ok     '} large: {words}: {min(seconds):.2f} to {max(seconds):.2f} s, longest task {min(longest):.0f} to {max(longest):.0f} ms, "
              f"{elements} elements, {strands} strands, heap {page.js('performance.memory.usedJSHeapSize') / 1e6:.0f} MB, renderer at most {renderer(page)} MB", flush=True)
        page.audit(f"large: {words}")
        if pictures:
            page.picture(pictures / f"large-{view[6:]}.png")
    print("large: in the page alone, 65,536 paths:", page.js(PARTS))
    return late
