"""What the page has to do with plans."""

import world
from browser import check
from cases import ask, case, confirm, open_plan, sign
from stage import answers


# ---- plans that are written


@case
def a_plan_is_staged_and_its_bad_line_is_marked(page, stage):
    sign(page, stage, "t-ada", "#plan/CHG20")
    page.says("There is no plan CHG20 yet", "the name is taken for good")
    page.until("document.activeElement?.id === 'text'")
    page.type("default A deny\ndefault  B deny\n")
    page.click("Stage CHG20")
    page.says("Line 2 is no line of a plan: words have just one space between them, and none at an end. The text was not staged.", "▶2")
    chosen = page.js("(one => one.value.slice(one.selectionStart, one.selectionEnd))(document.activeElement)")
    check(chosen == "default  B deny", f"selected is {chosen!r}")
    told = page.js("document.getElementById(document.activeElement.getAttribute('aria-describedby')).textContent")
    check("It reads: default  B deny" in told and page.js("document.activeElement.ariaInvalid") == "true", told)
    page.audit("plan, bad line")
    page.js("document.getElementById('text').select()")
    page.type("default A deny\ndefault B deny\n")
    page.click("Stage CHG20")
    page.says("✓ No path changes", "staged", "ada")


@case
def a_text_that_is_too_long_is_not_sent(page, stage):
    sign(page, stage, "t-ada", "#plan/CHG21")
    page.says("There is no plan CHG21 yet")
    page.js("document.getElementById('text').value = 'default A deny\\n'.repeat(6000)")
    page.click("Stage CHG21")
    page.says("A plan has at most 65,536 bytes.")
    check(stage.line.asked("PUT") == 0, "it was sent")


@case
def a_staging_whose_answer_is_cut_off_is_looked_for(page, stage):
    sign(page, stage, "t-ada", "#plan/CHG22")
    page.says("There is no plan CHG22 yet")
    page.type("default A deny\n")
    stage.line.lose = "PUT"
    page.click("Stage CHG22")
    page.says("✕ Not staged", "There is no plan CHG22: ask again.")
    stage.line.lose, stage.line.cut = None, "PUT"
    page.click("Stage CHG22")
    page.says("! The answer was cut off", "A plan CHG22 is there now: see that its author and its text are yours.", "No path changes")


@case
def a_refused_line_of_a_staged_plan_is_marked(page, stage):
    sign(page, stage, "t-ada", "#plan/CHG9")
    page.says("Line 2: There is no “nothing”, or not there.", "▶2")
    check(page.js("document.activeElement.id") == "text", "the line has not the focus")


@case
def a_better_text_takes_the_place_of_a_plan(page, stage):
    world.plan(stage.desk, "CHG9-2", "default A deny")
    sign(page, stage, "t-ada", "#plan/CHG9")
    page.says("Line 2: There is no")
    page.click("Write another plan from it")
    page.says("There is no plan CHG9-3 yet", "and withdraw CHG9")
    page.js("document.getElementById('text').select()")
    page.type("sg.map db1_sg 3 spare\n")
    page.click("Stage CHG9-3")
    page.says("Plan CHG9-3", "CHG9 is withdrawn", "gains 4 paths")
    check(ask(stage, "GET", "/plans/CHG9")["state"] == "withdrawn", "CHG9 is not withdrawn")


# ---- what plans do


@case
def what_a_plan_does_is_seen(page, stage):
    open_plan(page, stage, "t-bob", "CHG7", "✕ 1 host is left on one fabric", "Loses 4 paths (A 0, B 4), gains 2 paths (A 2, B 0).",
              "Hosts left without a path: none.", "Hosts left on one fabric: db1.", "✕ LEFT on fabric A alone", "! new, over fabric A alone")
    page.audit("plan, dry run")


@case
def the_picture_tells_what_goes_and_what_comes(page, stage):
    open_plan(page, stage, "t-bob", "CHG7", "Red, dashed, with −: lost.")
    counts = [page.js(f"document.querySelectorAll('svg.paths path.{kind}').length") for kind in ("lost", "gained", "kept")]
    check(counts == [8, 6, 8], counts)
    texts = lambda kind: page.js(f"[...document.querySelectorAll('svg.paths g.{kind}')].map(one => [...one.querySelectorAll('text')].map(text => text.textContent).join(' ')).join()")
    gone = "10:01:00:00:00:00:00:00 ✕ lost: −4,Fabric B ✕ lost: −4,50:01:00:00:00:00:00:01 ✕ lost: −2,50:01:00:00:00:00:00:02 ✕ lost: −2"
    check(texts("gone") == gone, texts("gone"))
    check(texts("new") == "spare new: +2", texts("new"))
    check(page.js("getComputedStyle(document.querySelector('svg path.lost')).strokeDasharray") != "none", "not dashed")
    check(page.js("document.querySelector('svg .sign.lost').textContent") == "−4", "no sign")
    check(page.js("document.querySelector('svg .sign.gained').textContent") == "+2", "no sign")


@case
def who_loses_the_last_path_stands_first(page, stage):
    world.plan(stage.desk, "CHG23", "sg.hide db2_sg", f"sg.untarget db1_sg {world.target(1, 1):016x}", f"sg.untarget db1_sg {world.target(1, 2):016x}",
               "sg.unmap app1_sg 0", "sg.map app1_sg 0 spare")
    open_plan(page, stage, "t-bob", "CHG23", "✕ 1 host loses its last path", "Hosts left without a path: db2.", "Hosts left on one fabric: db1.",
              "Hosts on one fabric as before: app1.", "✕ LOST: no path any more")
    first = page.js("document.querySelector('caption').closest('table').querySelector('tbody tr').innerText")
    check(first.startswith("app1") or first.startswith("db2"), first)
    check("LOST" in first, first)
    worst = page.js("[...document.querySelectorAll('caption')].find(one => one.textContent.startsWith('Hosts and volumes')).closest('table').querySelector('tbody tr').textContent")
    check("LOST" in worst, worst)


@case
def what_lists_replace_is_told(page, stage):
    world.plan(stage.desk, "CHG24", world.zone("A", "db2", [world.target(0, 1)]), world.zone("A", "db2", [world.target(0, 2)]), "set.put A s db1 app1",
               "zone.drop A db2", world.zone("A", "db2", [world.target(0, 1)]), "hg.put db1_hg green db1", "activate A s")
    sign(page, stage, "t-ada", "#plan/CHG24")
    rows = lambda: page.js("[...document.querySelectorAll('table')].find(one => one.caption.textContent.startsWith('Lists'))?.tBodies[0].innerText")
    page.says("What its lists replace", "Lists that the plan puts whole: 5")
    for wanted in ("! takes out wwpn=10:00:00:00:00:00:01:00 wwpn=50:00:00:00:00:00:00:02", "! takes out wwpn=50:00:00:00:00:00:00:01; adds wwpn=50:00:00:00:00:00:00:02",
                   "! takes out db2", "5\tzone.put A db2\tis made", "from the tenant blue to green"):
        check(wanted in rows(), f"{wanted} is not among {rows()}")


@case
def hosts_that_the_plan_does_not_name_are_asked_for(page, stage):
    open_plan(page, stage, "t-bob", "CHG8", "! Who is left on one fabric is not known", "1 initiator belongs to hosts that the page does not know",
              "10:00:00:00:00:00:01:00 in db2", "(of the hosts that the page knows)", "! the host is not known: only the change is")
    check(page.js("document.querySelectorAll('svg.paths g.gone').length") == 0, "what is not known is drawn as lost")
    page.audit("plan, host not known")
    page.fill("Names of hosts", "db1, db2, db9")
    page.key("Enter")
    page.says("✕ 1 host is left on one fabric", "Hosts left on one fabric: db2.", "✕ LEFT on fabric B alone", "No such hosts, or not yours: db9.")
    check(page.js("decodeURIComponent(location.hash)") == "#plan/CHG8/db1,db2,db9", page.js("location.hash"))


@case
def records_that_change_while_they_are_read_are_read_again(page, stage):
    world.plan(stage.desk, "CHG18", "sg.map db1_sg 13 spare")
    world.plan(stage.desk, "CHG19", "sg.map db1_sg 13 spare")
    world.approve(stage.desk, "CHG18")
    stage.line.before = "GET /paths/", lambda: ask(stage, "POST", "/plans/CHG18/activate")
    sign(page, stage, "t-ada", "#plan/CHG19")
    page.says("✓ No path changes", "Loses 0 paths (A 0, B 0), gains 0 paths (A 0, B 0).")


@case
def the_change_is_downloaded(page, stage):
    open_plan(page, stage, "t-bob", "CHG7", "Download the change")
    page.click("Download the change")
    lines = page.downloaded("CHG7-change.csv").split("\n")
    check(lines[0] == "change,fabric,host,initiator,target,volume,lun" and len(lines) == 8, lines)
    check(lines[1] == "lost,B,db1,10:01:00:00:00:00:00:00,50:01:00:00:00:00:00:01,db1_data,0", lines)
    check(lines[6] == "gained,A,db1,10:00:00:00:00:00:00:00,50:00:00:00:00:00:00:02,spare,2", lines)


# ---- orders


@case
def an_approver_who_may_not_try_it_is_told(page, stage):
    sign(page, stage, "t-kim", "#plan/CHG10")
    page.says("! What it does cannot be shown to you", "rule 7, “reviewers”: it asks for a role that you do not have", "Ask for the action “dryrun” in the policy")
    page.click("Approve")
    page.says("Approve CHG10 unseen?")
    check(page.focused() == "Cancel", page.focused())
    page.audit("dialog")
    page.key("Escape")
    page.until("!document.getElementById('sure').open")
    check(ask(stage, "GET", "/plans/CHG10")["approvals"] == [], "it was approved")
    page.click("Approve")
    confirm(page, "Approve unseen")
    page.says("Approved at revision", "1 caller has approved it.")


@case
def who_may_not_approve_is_told_the_rule(page, stage):
    open_plan(page, stage, "t-ada", "CHG10")
    page.click("Approve")
    page.says("The policy does not allow it: rule 3, “approvers”: it asks for a role that you do not have.")


@case
def the_author_does_not_approve(page, stage):
    open_plan(page, stage, "t-bob", "CHG15", "Hosts left without a path: db1.")
    page.click("Approve")
    page.says("You are the author of this plan, and your own approval would never count.")


@case
def without_approvals_it_is_not_activated(page, stage):
    open_plan(page, stage, "t-ada", "CHG10")
    page.click("Activate …")
    page.says("Activate CHG10?")
    asked = page.js("document.getElementById('sure').textContent")
    check("Loses 0 paths (A 0, B 0), gains 4 paths (A 2, B 2)." in asked, asked)
    check(page.focused() == "Cancel", page.focused())
    confirm(page, "Activate")
    page.says("rule 5, “four-eyes”: it asks for more approvals than there are that count.")


@case
def a_tenants_operator_is_told_the_rule(page, stage):
    world.approve(stage.desk, "CHG8")
    sign(page, stage, "t-cyd", "#plan/CHG8")
    page.says("1 initiator belongs to hosts")
    page.click("Activate …")
    confirm(page, "Activate")
    page.says("rule 4, “own-tenants”: it lets you touch your own tenants alone, and this touches another one.")


@case
def a_closed_window_is_told(page, stage):
    world.plan(stage.desk, "CHG25", "default B permit")
    world.approve(stage.desk, "CHG25")
    stage.restart_desk(is_open=False)
    open_plan(page, stage, "t-ada", "CHG25")
    page.click("Activate …")
    confirm(page, "Activate")
    page.says("rule 6, “fabric-b”: its window is closed now. The desk does not tell when it opens: ask who keeps the policy.")


@case
def it_is_approved_and_activated_and_rolled_back(page, stage):
    open_plan(page, stage, "t-bob", "CHG10", "gains 4 paths (A 2, B 2)")
    page.click("Approve")
    page.says("✓ Approved at revision", "1 caller has approved it.", "bob at revision")
    open_plan(page, stage, "t-ada", "CHG10")
    page.click("Activate …")
    confirm(page, "Activate")
    page.says("✓ Active since revision", "Gained 4 paths, lost 0, just as it was shown.", "What it did", "Lost 0 paths (A 0, B 0), gained 4 paths (A 2, B 2).")
    page.click("Roll back …")
    page.says("Roll back CHG10?", "It cannot be undone")
    confirm(page, "Roll back")
    page.says("✓ Rolled back at revision", "Gained 0 paths, lost 4.", "rolled-back", "✕ LOST: no path any more")


@case
def it_is_withdrawn(page, stage):
    open_plan(page, stage, "t-ada", "CHG10")
    page.click("Withdraw …")
    page.says("Withdraw CHG10?", "It can never be activated then.")
    confirm(page, "Withdraw")
    page.says("✓ Withdrawn")
    check(ask(stage, "GET", "/plans/CHG10")["state"] == "withdrawn", "it is not")


@case
def a_change_between_look_and_approval_is_told(page, stage):
    open_plan(page, stage, "t-bob", "CHG10", "gains 4 paths (A 2, B 2)")
    world.carry_out(stage.desk, "CHG12", f"sg.untarget db1_sg {world.target(1, 2):016x}")
    page.click("Approve")
    page.says("! It would do something else now", "look at it, and ask again.", "gains 3 paths (A 2, B 1)")
    check(ask(stage, "GET", "/plans/CHG10")["approvals"] == [], "it was approved")
    page.click("Approve")
    page.says("✓ Approved at revision")


@case
def a_change_right_before_the_approval_is_told(page, stage):
    open_plan(page, stage, "t-bob", "CHG10", "gains 4 paths (A 2, B 2)")
    stage.line.before = "/approve", lambda: world.carry_out(stage.desk, "CHG12", f"sg.untarget db1_sg {world.target(1, 2):016x}")
    page.click("Approve")
    page.says("! Approved at revision", "But a change came in between", "gains 3 paths (A 2, B 1)")


@case
def a_change_behind_the_dialog_is_told(page, stage):
    world.approve(stage.desk, "CHG10")
    open_plan(page, stage, "t-ada", "CHG10", "gains 4 paths (A 2, B 2)")
    page.click("Activate …")
    page.says("Activate CHG10?")
    world.carry_out(stage.desk, "CHG12", f"sg.untarget db1_sg {world.target(1, 2):016x}")
    confirm(page, "Activate")
    page.says("! It would do something else now", "gains 3 paths (A 2, B 1)")
    check(ask(stage, "GET", "/plans/CHG10")["state"] == "staged", "it was activated")


@case
def an_activation_that_did_something_else_is_told(page, stage):
    world.approve(stage.desk, "CHG10")
    open_plan(page, stage, "t-ada", "CHG10", "gains 4 paths (A 2, B 2)")
    stage.line.before = "CHG10/activate", lambda: world.carry_out(stage.desk, "CHG12", f"sg.untarget db1_sg {world.target(1, 2):016x}")
    page.click("Activate …")
    confirm(page, "Activate")
    page.says("! Active since revision", "Gained 3 paths, lost 0, which is NOT what was shown: a change came in between.", "gained 3 paths (A 2, B 1).")


@case
def a_stale_approval_is_told(page, stage):
    ask(stage, "POST", "/plans/CHG10/approve", token="t-bob")
    world.volume(stage.desk, "spare", "blue")
    ask(stage, "POST", "/plans/CHG15/approve", token="t-dan")
    sign(page, stage, "t-ada", "#plan/CHG10")
    page.says("bob at revision")
    page.says_not("stale")
    page.fill("Name of the plan", "CHG15")
    page.key("Enter")
    page.says("Plan CHG15", "dan at revision")
    page.fill("Name of the plan", "CHG10")
    page.key("Enter")
    page.says("Plan CHG10", "bob at revision", "(stale: a change came after it)")


@case
def nothing_is_sent_twice_by_two_clicks(page, stage):
    open_plan(page, stage, "t-bob", "CHG10")
    page.click("Approve", times=2)
    page.says("Approved at revision")
    page.until("document.activeElement.className.includes('note')")
    check(stage.line.asked("/approve") == 1, f"it was sent {stage.line.asked('/approve')} times")


# ---- answers that do not come


@case
def an_answer_that_is_cut_off_is_looked_for(page, stage):
    world.approve(stage.desk, "CHG10")
    open_plan(page, stage, "t-ada", "CHG10")
    stage.line.lose = "POST"
    page.click("Activate …")
    confirm(page, "Activate")
    page.says("✕ Not carried out", "The answer was cut off. The plan is staged: ask again.")
    stage.line.lose, stage.line.cut = None, "POST"
    page.click("Activate …")
    confirm(page, "Activate")
    page.says("! The plan is active", "The paths that it moved are not told again: look at the hosts.", "What was shown before")
    stage.line.cut = None
    page.click("Roll back …")
    confirm(page, "Roll back")
    page.says("Rolled back at revision", "✕ LOST: no path any more")


@case
def an_approval_whose_answer_is_cut_off_is_looked_for(page, stage):
    open_plan(page, stage, "t-bob", "CHG10")
    stage.line.cut = "POST"
    page.click("Approve")
    page.says("! The answer did not come", "Whether your approval was taken shows in “Approved by”", "bob at revision")


@case
def half_an_answer_is_none(page, stage):
    stage.line.halve = "/dryrun"
    sign(page, stage, "t-ada", "#plan/CHG10")
    page.says("✕ No answer", "No answer of the desk came")
    page.says_not("No path changes")
    stage.line.halve = None
    page.click("Try it again")
    page.says("gains 4 paths (A 2, B 2)")


@case
def what_is_no_answer_of_the_desk_is_none(page, stage):
    sign(page, stage, "t-ada")
    for number, text in enumerate(["<html>Log in to the network</html>", "{}", "[]", "null", '{"code":9}']):
        stage.line.answer = "GET /plans/CHG10", answers(200, text)
        page.js(f"location.hash = '#plan/CHG10/a{number}'")
        page.until("location.hash.endsWith('CHG10/a%d') && !!document.querySelector('[role=alert]')" % number)
        page.says("No answer of the desk came (status 200, and not from the desk).")
        page.says_not("Log in to the network")
    stage.line.answer = "GET /plans/CHG10", answers(413, "<html>413 Request Entity Too Large</html>")
    page.js("location.hash = '#plan/CHG10'")
    page.says("No answer of the desk came (status 413, and not from the desk).")


@case
def a_request_that_is_sent_twice_is_no_fault(page, stage):
    world.approve(stage.desk, "CHG10")
    open_plan(page, stage, "t-ada", "CHG10")
    stage.line.twice = "POST"
    page.click("Activate …")
    confirm(page, "Activate")
    page.says("! The plan is active", "The answer did not come, or it was carried out before.")


@case
def the_second_of_two_requests_may_be_denied(page, stage):
    world.plan(stage.desk, "CHG26", "default B permit")
    world.approve(stage.desk, "CHG26")
    open_plan(page, stage, "t-ada", "CHG26")
    stage.line.twice = "POST"
    page.click("Activate …")
    confirm(page, "Activate")
    page.says("! The plan is active", "The answer did not come, or it was carried out before.")


@case
def a_desk_that_is_away_is_told(page, stage):
    open_plan(page, stage, "t-ada", "CHG10")
    stage.end("desk")
    page.click("Try it again")
    page.says("No answer of the desk came (status 502, and not from the desk).", "gains 4 paths (A 2, B 2)")
    stage.start_desk()
    page.click("Try it again")
    page.until("!document.querySelector('[role=alert]')")
    page.says("What it does")
