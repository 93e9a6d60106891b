"""What the page has to do. A case gets the page in a browser, and its stage, over a desk of the small world."""

import json
import re
import urllib.error
import urllib.parse
import urllib.request

import world
from browser import check
from stage import answers

CASES = []


def case(function):
    """Takes a function among the cases."""
    CASES.append(function)
    return function


def ask(stage, method, path, **more):
    """Asks the desk behind the page's back."""
    return world.ask(stage.desk, method, path, **more)


def sign(page, stage, token, view=""):
    """Signs in anew, and goes to a view."""
    page.go("about:blank")
    page.go(stage.home + view)
    page.until("document.activeElement?.id === 'token'")
    page.type(token)
    page.key("Enter")
    page.until("document.querySelector('nav').hidden === false")


def confirm(page, text):
    """Says yes in the dialog."""
    page.click(text, "#sure button")


def open_plan(page, stage, token, name, *words):
    """Signs in, opens a plan, and waits until its dry run is shown."""
    sign(page, stage, token, f"#plan/{name}")
    page.says("What it does", *words)
    page.until("document.getElementById('said').textContent.includes('gains')")


# ---- signing in and out


@case
def a_wrong_token_is_told(page, stage):
    page.go(stage.home)
    page.until("document.activeElement?.id === 'token'")
    page.type("t-zed")
    page.key("Enter")
    page.says("Nobody has this token.")
    page.audit("sign-in, refused")
    check(page.js("document.querySelector('nav').hidden"), "it is let in")


@case
def a_token_of_no_form_is_not_sent(page, stage):
    page.go(stage.home)
    page.until("document.activeElement?.id === 'token'")
    page.type("two tokens")
    page.key("Enter")
    page.says("A token has 1 to 128 letters")
    check(stage.line.heads == [], "it was sent")


@case
def the_token_is_kept_in_memory_alone(page, stage):
    sign(page, stage, "t-ada", "#plan")
    page.says("The desk does not list plans")
    check(page.js("sessionStorage.length + localStorage.length + document.cookie.length") == 0, "something is kept")
    check("t-ada" not in page.js("location.href + document.documentElement.outerHTML"), "the token stands in the page")
    page.call("Page.reload")
    page.until("document.activeElement?.id === 'token'")


@case
def the_token_is_kept_in_the_tab_where_asked_for(page, stage):
    page.go(stage.home)
    page.until("document.activeElement?.id === 'token'")
    page.type("t-ada")
    for key in "Tab", " ", "Tab", "Enter":
        page.key(key)
    page.until("document.querySelector('nav').hidden === false")
    page.call("Page.reload")
    page.until("document.querySelector('nav')?.hidden === false")
    page.click("Sign out")
    page.says("You are signed out.")
    check(page.js("sessionStorage.getItem('sandesk-token')") is None, "it is kept when signed out")


def later(page, minutes):
    """From now on the page's clock is so much later than it was when this was first called."""
    page.js(f"window.began ??= Date.now(); Date.now = () => began + {minutes} * 60000; document.dispatchEvent(new Event('visibilitychange'))")


@case
def who_does_nothing_is_signed_out(page, stage):
    sign(page, stage, "t-ada", "#host/db1")
    page.says("Every volume is there")
    later(page, 14)
    page.key("Tab")
    later(page, 28)
    check(page.js("document.querySelector('nav').hidden") is False, "a key did not count")
    later(page, 29.1)
    page.says("You did nothing for 15 minutes, and are signed out.")
    page.says_not("Every volume is there")


@case
def a_key_that_comes_too_late_does_not_count(page, stage):
    sign(page, stage, "t-ada", "#host/db1")
    page.says("Every volume is there")
    page.js("const began = Date.now(); Date.now = () => began + 16 * 60000")
    page.key("Tab")
    page.says("You did nothing for 15 minutes, and are signed out.")


@case
def a_token_that_is_taken_back_leads_to_the_sign_in(page, stage):
    sign(page, stage, "t-ada", "#host/db1")
    page.says("Every volume is there")
    stage.line.is_strange = True
    page.fill("Name of the host", "app1")
    page.key("Enter")
    page.says("Nobody has this token any more: sign in again.")
    stage.line.is_strange = False
    page.until("document.activeElement?.id === 'token'")
    page.type("t-ada")
    page.key("Enter")
    page.says("Host app1", "app1_data")


@case
def what_was_typed_is_not_lost(page, stage):
    sign(page, stage, "t-ada", "#plan/CHG30")
    page.says("There is no plan CHG30 yet")
    page.type("default A deny\n")
    stage.line.is_strange = True
    page.click("Stage CHG30")
    page.says("Nobody has this token any more")
    stage.line.is_strange = False
    page.until("document.activeElement?.id === 'token'")
    page.type("t-ada")
    page.key("Enter")
    page.until("document.getElementById('text')?.value === 'default A deny\\n'")
    page.click("Stage CHG30")
    page.says("No path changes")


# ---- hosts


@case
def a_host_is_seen_over_both_fabrics(page, stage):
    sign(page, stage, "t-cyd", "#host/db1")
    page.says("✓ Every volume is there over both fabrics", "2 volumes over 8 paths: 2 volumes over both fabrics.",
              "db1 (tenant blue) has 2 ports: 1 logged in at fabric A, 1 at fabric B.", "db1_data")
    page.until("document.body.innerText.includes('arr1')")
    page.audit("host")


@case
def a_host_over_one_fabric_is_told(page, stage):
    sign(page, stage, "t-cyd", "#host/app1")
    page.says("! Not every volume is there over both fabrics", "1 volume over one alone: app1_data (A).", "! fabric A alone")


@case
def why_a_volume_is_not_seen_is_explained(page, stage):
    sign(page, stage, "t-cyd", "#host/app1")
    page.fill("Name of the storage group", "app1_sg")
    page.key("Enter")
    page.says("✓ It is exposed.", "✓ Its host group app1_hg has app1.", "✓ It has 1 volume: app1_data at unit 0.",
              "✓ Fabric A: 2 of 2 pairs of ports may communicate.", "✕ Fabric B: none of 2 pairs of ports may communicate.",
              "✕ no common zone", "✓ zone app1")
    page.audit("host, explained")
    page.fill("Name of the storage group", "db1_sg")
    page.key("Enter")
    page.says("✕ None of its host groups that you may see has app1.")


@case
def a_host_of_others_is_not_there(page, stage):
    sign(page, stage, "t-cyd", "#host/db2")
    page.says("There is no such thing, or it is not for you: the desk does not tell which.")


@case
def a_name_that_is_none_is_not_sent(page, stage):
    sign(page, stage, "t-ada")
    stage.line.set_right()
    for name in "db1.example.com", "..", "a b", "$a", "^", "a%2Fb", "%zz":
        page.js(f"location.hash = {json.dumps('#host/' + name.replace(' ', '%20'))}")
        page.says("is no name: 1 to 64 characters")
        page.js("location.hash = '#look'")
        page.says("Look up: storage group")
    check(stage.line.heads == [], stage.line.heads)


@case
def names_with_odd_characters_are_whole(page, stage):
    name = "a_b-c$d^e"
    world.holder(stage.desk, "hosts", urllib.parse.quote(name), [], "blue")
    sign(page, stage, "t-ada", "#host/" + urllib.parse.quote(name))
    page.says(f"Host {name}", "✕ This host sees no volume", f"{name} (tenant blue) has 0 ports")


@case
def the_paths_are_downloaded(page, stage):
    sign(page, stage, "t-ada", "#host/db1")
    page.click("Download the paths")
    lines = page.downloaded("db1-paths.csv").split("\n")
    check(lines[0] == "fabric,host,initiator,target,volume,lun" and len(lines) == 10, lines)
    check(lines[1] == "A,db1,10:00:00:00:00:00:00:00,50:00:00:00:00:00:00:01,db1_data,0", lines)


SENTENCES = [
    ({"code": 1}, "Nobody has this token."),
    ({"code": 2}, "The desk could not read the request."),
    ({"code": 7, "line": 0}, "The text is no plan: it is empty, or longer than 65,536 bytes, or was cut off. It was not staged."),
    ({"code": 7, "line": 1}, "Line 1 is no line of a plan: “foo” is no step. The text was not staged."),
    ({"code": 7, "line": 2}, "Line 2 is no line of a plan: it is empty. The text was not staged."),
    ({"code": 7, "line": 3}, "Line 3 is no line of a plan: a plan has no comments. The text was not staged."),
    ({"code": 7, "line": 4}, "Line 4 is no line of a plan: it has a tab. The text was not staged."),
    ({"code": 7, "line": 5}, "Line 5 is no line of a plan: the second word has to be A or B. The text was not staged."),
    ({"code": 7, "line": 6}, "Line 6 is no line of a plan: it has too few or too many words, or one that has not its form. The text was not staged."),
    ({"code": 7, "line": 201}, "A plan has at most 200 lines. The text was not staged."),
    ({"code": 8, "need": "rule", "rule": 0, "rule_name": "no-rule"}, "The policy has no rule that allows this action to anybody."),
    ({"code": 8, "need": "tenants", "rule": 6, "rule_name": "each"}, "The policy does not allow it: rule 6, “each”: somebody who lists the tenant has to approve it, "
     "for each tenant that it touches. Of one nobody has, or not since the last change."),
    ({"code": 10, "name": "p1"}, "The name “p1” is taken."),
    ({"code": 11, "name": "z1", "by": "s1", "step": 4}, "Line 4: “z1” is in use by “s1”."),
    ({"code": 12, "name": "z9", "step": 3}, "Line 3: There is no “z9”, or not there."),
    ({"code": 13, "name": "v9", "step": 1}, "Line 1: “v9” is not on the storage group's array."),
    ({"code": 14, "group": "g1", "lun": 0, "step": 2}, "Line 2: Another volume is at unit 0 of the storage group “g1”."),
    ({"code": 14, "host": "db1", "lun": 0, "target": "50:0", "step": 0}, "After the last line the host “db1” would see two volumes at unit 0 of the target 50:0."),
    ({"code": 15, "limit": "paths"}, "There would be too many: at most 65,536 paths in all."),
    ({"code": 16, "state": "withdrawn"}, "The plan is withdrawn now, and that does not allow it."),
    ({"code": 17, "last": "p4"}, "“p4” was activated later and is still in force: it has to be rolled back first."),
    ({"code": 18, "name": "v1"}, "“v1”, which the earlier configuration names, is not there any more. Put it back, and roll back again."),
    ({"code": 21}, "The desk had no memory for it. Nothing was changed: ask again later."),
    ({"code": 22}, "The database refused. Whether a change was made is known once the desk has opened it again."),
    ({"code": 23}, "The desk is halted: its database can not be opened. Nothing was changed."),
]
TEXT = "foo\n\n# x\na\tb\nzone.put C z\nzone.put A\n"


@case
def each_refusal_has_its_sentence(page, stage):
    sign(page, stage, "t-ada")
    told = page.js(f"""Promise.all([import('./words.js'), import('./desk.js')]).then(([words, desk]) => {json.dumps([is_ for is_, _ in SENTENCES])}
        .map(is => words.told(new desk.Refusal({{ error: '', ...is }}), {json.dumps(TEXT)}).words))""")
    for (_, wanted), found in zip(SENTENCES, told):
        check(wanted == found, f"{found!r} and not {wanted!r}")


# ---- looking up


@case
def records_are_looked_up(page, stage):
    sign(page, stage, "t-ada", "#look/groups/db1_sg")
    page.says("Look up: storage group", "db1_hg", "db1_data")
    page.audit("look up")
    page.click("db1_hg")
    page.until("location.hash === '#look/hostgroups/db1_hg'")
    page.click("db1", "dd a")
    page.says("✓ Every volume is there over both fabrics")
    for view, words in {f"joined/{world.initiator(0, 0):016x}/{world.target(0, 1):016x}": ["✓ They may communicate", "The first zone that has both: db1."],
                        f"joined/{world.initiator(0, 2):016x}/{world.initiator(1, 2):016x}": ["! They may not communicate"],
                        "active/A": ["db2", ": wwpn=10:00:00:00:00:00:01:00"], "zones/A/db1": ["wwpn=50:00:00:00:00:00:00:02"], "sets/B/s": ["db1"],
                        "volumes/spare": ["arr1"], "arrays/arr1": ["store"], "ports/5000000000000001": ["domain 1, fabric A"],
                        "nothing": ["Look up: nothing of this kind"], "constructor": ["Look up: nothing of this kind"]}.items():
        page.js(f"location.hash = '#look/{view}'")
        page.says(*words)


@case
def tables_are_capped_with_their_counts(page, stage):
    sign(page, stage, "t-ada")
    page.js("import('./dom.js').then(({ table }) => document.getElementById('main').append(table('Numbers', ['#Number'], 450, at => [at])))")
    page.says("Numbers: the first 200 of 450")
    page.click("Show 200 more")
    page.says("Numbers: the first 400 of 450")
    check(page.js("document.activeElement.textContent") == "Show 50 more", "the focus is gone")
    page.click("Show 50 more")
    page.says("Numbers: 450")


# ---- for everybody


@case
def it_works_by_keyboard_alone(page, stage):
    page.go("about:blank")
    page.go(stage.home)
    page.until("document.activeElement?.id === 'token'")
    page.type("t-bob")
    page.key("Enter")
    page.until("document.activeElement?.tagName === 'INPUT' && document.querySelector('nav').hidden === false")
    page.type("CHG7")
    page.key("Enter")
    page.says("Hosts left on one fabric: db1.")
    page.until("document.getElementById('said').textContent.includes('gains')")
    reached = []
    for _ in range(26):
        page.key("Tab")
        reached.append(page.js("(one => one.getAttribute('aria-label') || one.textContent.slice(0, 40) || one.id)(document.activeElement)"))
    for wanted in "Try it again", "Approve", "Activate …", "Withdraw …", "Picture of the change", "Hosts that change", "db1", "Download the change (CSV)", "text":
        check(wanted in reached, f"{wanted} is not reached: {reached}")
    while page.focused() != "Withdraw …":
        page.key("Tab")
    page.key("Enter")
    page.says("Withdraw CHG7?")
    check(page.focused() == "Cancel", page.focused())
    page.key("Tab")
    check(page.focused() == "Withdraw", page.focused())
    page.key("Escape")
    page.until("document.activeElement.textContent === 'Withdraw …'")


@case
def a_result_takes_the_focus(page, stage):
    open_plan(page, stage, "t-bob", "CHG10")
    page.click("Approve")
    page.says("Approved at revision")
    page.until("document.activeElement !== document.body && document.activeElement.textContent.includes('Approved at revision')")


@case
def a_view_that_is_left_closes_its_dialog(page, stage):
    open_plan(page, stage, "t-ada", "CHG10")
    page.click("Withdraw …")
    page.says("Withdraw CHG10?")
    page.js("location.hash = '#plan/CHG7'")
    page.says("Plan CHG7", "Hosts left on one fabric: db1.")
    check(page.js("document.getElementById('sure').open") is False, "the dialog is open")
    check(ask(stage, "GET", "/plans/CHG10")["state"] == "staged", "it was withdrawn")


@case
def it_is_read_by_a_screen_reader(page, stage):
    open_plan(page, stage, "t-bob", "CHG7", "Download the change")
    tree = [one for one in page.call("Accessibility.getFullAXTree")["nodes"] if not one.get("ignored")]
    names = {(one["role"]["value"], (one.get("name") or {}).get("value", "")) for one in tree}
    for role, name in [("textbox", "Text of the plan (it cannot be changed any more)"), ("button", "Approve"), ("image", "What CHG7 does"), ("region", "Hosts that change"),
                       ("columnheader", "What it means"), ("heading", "Plan CHG7"), ("status", ""), ("navigation", "Views")]:
        check(any(one == role and text.startswith(name) for one, text in names), f"no {role} “{name}”: {sorted(names)}")
    pictures = [json.dumps(one) for one in tree if one["role"]["value"] in ("image", "img")]
    check(any("Loses 4 paths (A 0, B 4)" in one for one in pictures), "the picture has no words")


@case
def it_is_dark(page, stage):
    page.media(prefers_color_scheme="dark")
    open_plan(page, stage, "t-bob", "CHG7", "Hosts left on one fabric")
    check(page.js("getComputedStyle(document.body).backgroundColor") == "rgb(20, 24, 28)", "it is not dark")
    page.audit("plan, dark")


@case
def it_is_seen_in_forced_colours(page, stage):
    page.media(forced_colors="active")
    open_plan(page, stage, "t-bob", "CHG7", "Hosts left on one fabric")
    page.audit("plan, forced colours")
    back = page.js("getComputedStyle(document.body).backgroundColor")
    for what, key in ("svg path.kept", "stroke"), ("svg path.lost", "stroke"), ("svg path.gained", "stroke"), ("svg rect", "stroke"), ("svg text.count", "fill"):
        check(page.js(f"getComputedStyle(document.querySelector('{what}')).{key}") != back, f"{what} is not seen")
    check(page.js("getComputedStyle(document.querySelector('svg path.lost')).strokeDasharray") != "none", "not dashed")


@case
def it_is_320_pixels_wide(page, stage):
    page.width(320)
    for view, words in ("#plan/CHG7", "Hosts left on one fabric: db1."), ("#plan/CHG8", "What its lists replace"), ("#host/db1", "Download the paths"), ("#look/active/A", "wwpn="), ("#plan/CHG31", "There is no plan"):
        sign(page, stage, "t-bob", view)
        page.says(words)
        wide = page.js("document.documentElement.scrollWidth")
        check(wide <= 320, f"{view} is {wide} wide")
    open_plan(page, stage, "t-bob", "CHG7", "Hosts left on one fabric")
    page.audit("plan, 320 wide")


def contrast(one, other):
    """The contrast of two colours, #rrggbb."""
    def light(text):
        parts = [int(text[at:at + 2], 16) / 255 for at in (1, 3, 5)]
        return sum(weight * (part / 12.92 if part <= 0.04045 else ((part + 0.055) / 1.055) ** 2.4) for weight, part in zip((0.2126, 0.7152, 0.0722), parts))
    low, high = sorted((light(one), light(other)))
    return (high + 0.05) / (low + 0.05)


@case
def colours_are_far_enough_apart(page, stage):
    page.go(stage.home)
    texts = [(front, back, 4.5) for front in ("text", "faint", "link", "lost", "gained", "warn") for back in ("back", "field")]
    texts += [("lost", "lost-back", 4.5), ("warn", "warn-back", 4.5), ("gained", "good-back", 4.5), ("back", "link", 4.5)]
    texts += [("text", back, 4.5) for back in ("lost-back", "warn-back", "good-back")] + [("line", "back", 3), ("line", "field", 3)]
    for scheme in "light", "dark":
        page.media(prefers_color_scheme=scheme)
        names = sorted({name for pair in texts for name in pair[:2]})
        colours = page.js(f"Object.fromEntries({json.dumps(names)}.map(name => [name, getComputedStyle(document.documentElement).getPropertyValue('--' + name).trim()]))")
        for front, back, least in texts:
            found = contrast(colours[front], colours[back])
            check(found >= least, f"{scheme}: {front} on {back} is {found:.2f}")


# ---- what goes over the wire


@case
def what_the_desk_gets_is_small(page, stage):
    for name in "one", "other":
        page.call("Network.setCookie", name=name, value="x" * 4000, url=stage.home)
    try:
        sign(page, stage, "t-ada", "#host/db1")
        page.says("Every volume is there")
    finally:
        page.call("Network.clearBrowserCookies")
    lines = {one.split(":")[0] for head in stage.line.heads for one in head.split("\r\n")[1:]}
    check(lines <= {"Authorization", "Host", "Connection", "Content-Length"} and "Authorization" in lines, lines)
    check(max(map(len, stage.line.heads)) < 300, max(map(len, stage.line.heads)))


def headers(stage, path, method="GET"):
    """The status and the header lines of an answer."""
    try:
        answer = world.OPENER.open(urllib.request.Request(stage.home + path, method=method))
    except urllib.error.HTTPError as fault:
        answer = fault
    return answer.status, {key.lower(): value for key, value in answer.headers.items()}


RULES = ("default-src 'none'; script-src 'self'; style-src 'self'; connect-src 'self'; img-src 'self'; base-uri 'none'; form-action 'none'; "
         "frame-ancestors 'none'; require-trusted-types-for 'script'; trusted-types 'none'")


@case
def the_answers_have_their_lines(page, stage):
    status, has = headers(stage, "")
    check(status == 200 and has["content-security-policy"] == RULES, has)
    check(has["x-content-type-options"] == "nosniff" and has["referrer-policy"] == "no-referrer" and has["cache-control"] == "no-cache", has)
    check(has["cross-origin-opener-policy"] == "same-origin", has)
    check(headers(stage, "app.js")[1]["content-type"] == "text/javascript", "a module is no JavaScript")
    check(headers(stage, "none")[0] == 404 and headers(stage, "", "POST")[0] == 403, "static files")
    status, has = headers(stage, "desk/active/A")
    check(status == 401 and has["cache-control"] == "no-store" and "access-control-allow-origin" not in has, has)
    check(has["content-security-policy"] == "default-src 'none'; frame-ancestors 'none'" and has["x-content-type-options"] == "nosniff", has)


@case
def markup_in_an_answer_is_text(page, stage):
    evil = "<img src=x onerror=window.bad=1>"
    told = json.dumps({"approvals": [{"caller": evil, "revision": 1}], "author": evil, "plan": "CHG10", "state": "withdrawn", "text": evil + "\n"})
    stage.line.answer = "GET /plans/CHG10", answers(200, told)
    sign(page, stage, "t-ada", "#plan/CHG10")
    page.says(evil, f"{evil} at revision 1")
    page.js("new Promise(done => setTimeout(done, 200))")
    check(page.js("window.bad") is None and page.js("document.images.length") == 0, "it is read as markup")


@case
def markup_is_taken_from_nobody(page, stage):
    sign(page, stage, "t-ada")
    begun = len(page.events)
    told = page.js("(() => { try { document.body.insertAdjacentHTML('beforeend', '<i>'); return 'taken'; } catch (fault) { return fault.name; } })()")
    check(told == "TypeError", "trusted types do not hold")
    page.js("new Promise(done => setTimeout(done, 100))")
    del page.events[begun:]  # this fault was meant


@case
def the_browser_finds_no_fault(page, stage):
    begun = len(page.events)
    open_plan(page, stage, "t-ada", "CHG7", "Download the change")
    page.js("location.hash = '#host/db1'")
    page.says("Every volume is there")
    page.js("location.hash = '#look/groups/db1_sg'")
    page.says("db1_hg")
    events = page.events if page.is_whole else page.events[begun:]
    faults = [json.dumps(one) for one in events if one.get("method") in ("Log.entryAdded", "Runtime.exceptionThrown")
              or one.get("method") == "Runtime.consoleAPICalled" and one["params"]["type"] in ("error", "assert")]
    bad = [one for one in faults if not re.search(r"Failed to load resource: (the server responded with a status of (40[0-9]|41[0-9]|50[0-9])|net::ERR_CONTENT_LENGTH)", one)]
    check(not bad, bad[:3])
    asked = {one["params"]["request"]["url"].split("#")[0] for one in events if one.get("method") == "Network.requestWillBeSent"}
    check(all(one.startswith((stage.home, "about:", "blob:" + stage.home)) for one in asked), asked)
    check(not any("t-ada" in one or "?" in one for one in asked), "a token or a query stands in an address")
    logs = stage.logs()
    check("/desk/plans/CHG7/dryrun" in logs, "nothing is logged")
    check(not re.search(r"Bearer|t-ada|t-bob|t-cyd", logs), "a token stands in a log")
