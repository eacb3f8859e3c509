"""`central call --data`: what is said of calls by what their points have, before they are sent; and what `--undo` undoes."""
import json
import re
import tempfile
import threading

from programs import run
from raw_client import RawClient
from run_data import SITE, Data, SiteFile, read, stop, transaction_of
from serving import Running, expect, until
from texts import accepted, clear, error, heartbeat, install, install_call, profile, rejected, start

NOT_SENT = b": it would be refused, so it isn't sent; --force sends it\n"
FUSE = {"purpose": "ChargePointMaxProfile"}
TX = {"purpose": "TxProfile", "kind": "Relative"}
# What is said behind calls: which of them wait.
WAITING = re.compile(rb"central: \S+ (?:isn't connected: \d+ calls? waits?|hasn't answered a call: \d+ calls? waits? behind it)\n")
GONE = b": warning: this leaves the point without a ChargePointMaxProfile; it had up to 32.0 A\n"
HELD_BACK = 2, b"! undo LaterChanges\n"
NAMED = b"ChargePointMaxProfile 3 (stack level 0, at connector 0)"
OTHER_ID = b"set-profile: remark: ChargePointMaxProfile 7 takes the place of %s, which has its connector, purpose and stack level\n" % NAMED


class Site:
    """A site that is run, and calls to it that are checked by its folder."""

    def __init__(self, program, running, data, site):
        self.program = program
        self.base = f"ws://127.0.0.1:{running.port}/operator"
        self.checked = ["--site", site, "--data", data.path]
        self.data = data

    def call(self, *options, **more):
        """What a call prints, but for which calls wait."""
        status, out, said = self.call_whole(*options, **more)
        return status, out, WAITING.sub(b"", said)

    def call_whole(self, *options, at="/P1", checked=True):
        return run(self.program, ["call", "--url", self.base + at, *(self.checked if checked else []), *options])

    def set(self, fields, *options, connector=0, **more):
        with tempfile.NamedTemporaryFile("w", suffix=".json") as file:
            json.dump({"connectorId": connector, "csChargingProfiles": fields}, file, indent=1)
            file.flush()
            return self.call("--set-profile", file.name, *options, **more)

    def lines(self):
        """How many lines the journal has as a script."""
        return len(read(self.program, self.data, "journal")[1].splitlines())

    def undo(self, *options, line=None, at="/P1"):
        """Undoes a line of that script, or its last one."""
        return self.call("--undo", str(line or self.lines()), *options, at=at)


def of_site(test):
    """A test that gets a site, on which a fuse limit is installed as profile 3, with its operator and its point."""

    def tested(program):
        with Data() as data, SiteFile(SITE) as path, Running(program, SITE, data.path) as running:
            with RawClient.connected(running, "/operator/P1") as operator, RawClient.connected(running, "/P1") as point:
                point.texts_of(heartbeat("h"))
                expect("a fuse limit", operator.texts_of(install("f", profile(3, [32], **FUSE))), [accepted("f")])
                test(Site(program, running, data, path), operator, point)

    return tested


def sent(name, said=b""):
    return 0, b'[3,"%s",{"status":"Accepted"}]\n' % name, said


def warnings(site, operator, _point):
    """What only the point's state tells is said before a call is sent, and holds nothing back; without `--data` it isn't."""
    taken = b"set-profile: %%s: TxDefaultProfile 3 takes the place of %s, which has the same chargingProfileId\n" % NAMED
    high = b"set-profile: warning: ChargePointMaxProfile 3: each of its limits is above the ceiling of the site file there, 63.0: it never lowers anything\n"
    raised = b"set-profile: warning: this raises what the point's ChargePointMaxProfiles allow at most from 32.0 to %s A\n"
    expect("a fuse ten times as high", site.set(profile(3, [320], **FUSE), "--dry-run")[::2], (0, high + raised % b"320.0"))
    expect("a higher fuse", raised % b"40.0" in site.set(profile(3, [40], **FUSE), "--dry-run")[2], True)
    expect("one of another id", site.set(profile(7, [30], **FUSE), "--dry-run")[2].splitlines(True)[0], OTHER_ID)
    lifted = b"set-profile: warning: ChargePointMaxProfile 9 allows up to 60.0 A, and 3 only 32.0 A: while 9 has a limit, 3 doesn't count, since"
    expect("one above it", site.set(profile(9, [60], level=1, **FUSE), "--dry-run")[2][: len(lifted)], lifted)
    expect("an id of another purpose", site.set(profile(3, [8]), "--dry-run")[::2], (0, taken % b"warning" + b"set-profile" + GONE))
    expect("nothing was sent", site.call("--clear", '{"id":3,"stackLevel":1}')[::2], (
        0, b"clear: warning: this clears nothing: the point has no profile that matches its criteria\n"))
    along = b"clear: warning: this clears %s too: name id or chargingProfilePurpose, if that isn't meant\n" % NAMED
    expect("a clear that takes it along", site.call("--clear", '{"stackLevel":0}'), sent(b"clear", along + b"clear" + GONE))
    expect("without the folder", site.set(profile(3, [320], **FUSE), checked=False), sent(b"set-profile"))
    expect("and the id", site.set(profile(3, [8]), checked=False), sent(b"set-profile"))
    expect("what is right", site.set(profile(4, [8], level=1)), sent(b"set-profile"))


def together(site, operator, _point):
    """What the point has only with a call is said with it: its connectors go beyond the fuse limit."""
    status, _out, said = site.set(profile(3, [8], **FUSE), "--ask", "0", "60", "--dry-run")
    expect("the status", status, 0)
    expect("what is said", [line for line in said.splitlines() if b"if all connectors charge" in line][0][:53], b"set-profile: remark: if all connectors charge, their ")
    expect("the same is not said anew", b"ask: " in said, False)


def refusals(site, operator, point):
    """What the point's state refuses is held back, and sent by `--force`."""
    slow = profile(5, [6], **TX)
    status, out, said = site.set(slow, "--ask", "1", "60", "--dry-run", connector=1)
    expect("held back", (status, out.splitlines()[0], said.splitlines(True)[-1]), (2, b"! set-profile HasFault", b"set-profile" + NOT_SENT))
    expect("why", b"set-profile: NoTransaction: " in said, True)
    expect("the other isn't", out.splitlines()[1][:7], b'[2,"ask')
    status, out, said = site.set(slow, "--force", connector=1)
    expect("by force", (status, out), (2, b'[3,"set-profile",{"status":"Rejected","reason":"NoTransaction"}]\n'))
    expect("said before and behind", said.count(b"set-profile: NoTransaction: "), 2)
    expect("a start", transaction_of(point.texts_of(start("s"))[0]), 1)
    status, out, _said = site.set(slow, connector=1)
    expect("with a transaction", (status, out), sent(b"set-profile")[:2])
    status, out, said = site.set(profile(6, [6], connector=9), "--dry-run", connector=9)
    expect("no such connector", (status, out), (2, b"! set-profile HasFault\n"))


def each_point(site, operator, _point):
    """With `--all` each point's own state tells, and what is said begins with the point."""
    status, out, said = site.call("--all", "--clear", '{"id":3}', at="")
    expect("both", (status, out), (0, b'P1 [3,"clear",{"status":"Accepted"}]\nP2 [3,"clear",{"status":"Unknown"}]\n'))
    nothing = b"P2 clear: warning: this clears nothing: the point has no profile that matches its criteria\n"
    expect("what is said", said, b"P1 clear" + GONE + nothing)
    status, out, said = site.call("--all", "--clear", '{"id":77}', at="")
    expect("neither", (status, out), (0, b'P1 [3,"clear",{"status":"Unknown"}]\nP2 [3,"clear",{"status":"Unknown"}]\n'))
    expect("what is said of both", said, nothing.replace(b"P2", b"P1, P2"))
    expect("a fault of both", site.set(profile(5, [6], **TX), "--all", at="", connector=1)[:2], (
        2, b"P1 ! set-profile HasFault\nP2 ! set-profile HasFault\n"))


def command_lines(site, operator, _point):
    """What `--data` goes with."""
    belong = b"central: command line: --site F is for --all or --data DIR, and each of them needs it\n"
    expect("no site", site.call("--status", "--data", "/none", checked=False), (4, b"", belong))
    none = b"central: command line: --all and --data DIR are for the calls of options, and there is none\n"
    expect("no call", site.call(), (4, b"", none))
    expect("no such point", site.call("--status", at="/P9"), (4, b"", b"central: command line: no such point in the site file\n"))
    status, _out, said = site.call("--site", site.checked[1], "--data", "/none", "--status", checked=False)
    expect("no such folder", (status, b"/none" in said), (3, True))


def undone(site, operator, _point):
    """An install, a clear and a replaced profile are undone, and what came behind them with them, by `--force`."""
    fuse, lower = profile(3, [32.0], **FUSE), profile(3, [16.0], **FUSE)
    nothing = b"undo: P1 has the profiles that it had before line %d, as far as they can be there\n"
    expect("an install", operator.texts_of(install("a", profile(4, [8], level=1))), [accepted("a")])
    line = site.lines()
    expect("what would undo it", site.undo("--dry-run")[:2], (0, b'[2,"clear","ClearChargingProfile",{"id":4}]\n'))
    expect("undone", site.undo()[:2], sent(b"clear")[:2])
    status, out, said = site.undo(line=line)
    expect("once", (status, out), (0, b""))
    expect("what is said once", said.endswith(nothing % line), True)
    expect("which line it was", re.match(rb'undo: line %d is [^ ]+ operator P1 \[2,"a","SetChargingProfile"' % line, said) is None, False)
    expect("a clear", operator.texts_of(clear("c", id=3)), [accepted("c")])
    frame = install_call("set-profile", fuse).encode() + b"\n"
    expect("what would undo the clear", site.undo("--dry-run")[:2], (0, frame))
    expect("the clear is undone", site.undo(at="")[:2], (0, b"P1 " + sent(b"set-profile")[1]))
    expect("a lower fuse limit", operator.texts_of(install("l", lower)), [accepted("l")])
    line = site.lines()
    expect("and another profile", operator.texts_of(install("m", profile(5, [8], level=1))), [accepted("m")])
    expect("what would undo both", site.undo("--dry-run", line=line)[:2], HELD_BACK)
    status, out, said = site.undo("--dry-run", "--force", line=line)
    expect("what would undo both by force", (status, out), (0, b'[2,"clear","ClearChargingProfile",{"id":5}]\n' + frame))
    expect("what else is undone", later_in(said), [(site.lines(), "TxDefaultProfile 5")])
    status, out, _said = site.undo("--force", "--ask", "0", "60", line=line)
    expect("undone, and asked", (status, out.count(b"Accepted")), (0, 3))
    status, out, said = site.undo("--dry-run", line=line)
    expect("none is left", (status, out, said.endswith(nothing % line)), (0, b"", True))


def later_in(said):
    """The later changes that are named on standard error: the line of each, and its profile."""
    found = re.findall(r"^central: undo takes back line (\d+) of \d{4}-\d\d-\d\dT\d\d:\d\d:\d\dZ too: (.*)$", said.decode(), re.MULTILINE)
    return [(int(line), profile) for line, profile in found]


def later_changes(site, operator, _point):
    """Of the later changes those are named that are taken back, each once, and nothing is sent unless by `--force`."""
    lines = []
    for text in (
        install("a", profile(4, [8], level=1)), install("b", profile(5, [9], level=2)), clear("c", id=5),
        install("d", profile(6, [7], level=3)), clear("e", id=4),
    ):
        expect("a change", len(operator.texts_of(text)), 1)
        lines.append(site.lines())
    first, second, clearing, third, last = lines
    for line, wanted in (
        (first, [(third, "TxDefaultProfile 6")]),
        (second, [(third, "TxDefaultProfile 6"), (last, "the clear of TxDefaultProfile 4")]),
        (clearing, [(third, "TxDefaultProfile 6"), (last, "the clear of TxDefaultProfile 4")]),
        (third, [(last, "the clear of TxDefaultProfile 4")]),
    ):
        status, out, said = site.undo(line=line)
        expect(f"what goes with line {line}", (status, out, later_in(said)), (*HELD_BACK, wanted))
        why = b"undo: it would take back later changes too, so it isn't sent; --force sends it"
        expect("why it isn't sent", said.splitlines()[-1], why)
    status, out, said = site.undo("--status", at="", line=third)
    expect("what is asked besides", (status, out.splitlines()[0], out.count(b"Accepted")), (2, b"P1 ! undo LaterChanges", 1))
    status, out, said = site.undo(line=last)
    expect("the last one alone", (status, out, later_in(said)), (0, sent(b"set-profile")[1], []))
    status, out, said = site.undo(line=third)
    expect("with it undone the one before", (status, out, later_in(said)), (0, sent(b"clear")[1], []))


def waiting_calls(site, _operator, point):
    """Behind calls it is said which points aren't connected, or have calls that wait, but not what a dry run would do."""
    away = b"central: P2 isn't connected: 1 call waits\n"
    behind = b"central: P1 hasn't answered a call: 1 call waits behind it\n"
    expect("two points", site.call_whole("--all", "--status", at="")[2], behind + away)
    expect("one of them", site.call_whole("--status")[2], behind)
    expect("a dry run", site.call_whole("--all", "--status", "--dry-run", at="")[2], b"")
    expect("without the folder", site.call_whole("--status", checked=False)[2], b"")
    for number in ("0", "1"):
        point.texts_of(accepted(number))
    until("the replies are written", lambda: site.call_whole("--all", "--status", at="")[2] == away)
    point.close()
    until("the point is away", lambda: site.call_whole("--status")[2] == b"central: P1 isn't connected: 0 calls wait\n")
    status, _out, said = site.call_whole("--clear", '{"id":3}')
    expect("a call to it", (status, said.splitlines(True)[-1]), (0, b"central: P1 isn't connected: 1 call waits\n"))


def ended_transactions(site, operator, point):
    """A TxProfile comes back while its transaction is active, and not behind it."""
    expect("a start", transaction_of(point.texts_of(start("s"))[0]), 1)
    expect("a TxProfile", operator.texts_of(install("t", profile(5, [6], **TX), connector=1)), [accepted("t")])
    expect("a clear", operator.texts_of(clear("c", id=5)), [accepted("c")])
    line = site.lines()
    frame = install_call("set-profile", profile(5, [6.0], **TX), connector=1).encode()
    status, out, said = site.undo("--dry-run", line=line)
    expect("while it is active", (status, out), (0, frame + b"\n"))
    expect("what is said of it", said.splitlines()[1].startswith(b"undo: warning: "), True)
    point.texts_of(stop("e", 1))
    status, out, said = site.undo(line=line)
    expect("behind it", (status, out), (0, b""))
    expect("what is said behind it", said.splitlines()[1], b"undo: TxProfile 5 at connector 1 can't be set again: its transaction has ended")
    expect("another start", transaction_of(point.texts_of(start("u"))[0]), 2)
    expect("at another car", site.undo(line=line)[:2], (0, b""))


def outcomes(site, _operator, point):
    """With `--wait` the status says whether the point did the calls, and standard error what it rejected; without, nobody waits."""
    for number in ("0", "1"):
        point.texts_of(accepted(number))
    fault = b"central: command line: --wait SECONDS needs --data DIR\n"
    expect("without the folder", site.call("--status", "--wait", "1", checked=False), (4, b"", fault))
    for number, (reply, status, said) in enumerate((
        (accepted("2"), 0, rb""),
        (rejected("3", "no"), 5, rb"central: P1 answered Rejected to call 3, SetChargingProfile, [^\n]*TxDefaultProfile 5[^\n]*\n"),
        (error("4", "NotSupported"), 5, rb"central: P1 answered CALLERROR to call 4, SetChargingProfile, [^\n]*\n"),
        (accepted("5"), 0, rb""),
    ), 2):
        found = []
        calling = threading.Thread(target=lambda limit=number: found.append(site.set(profile(5, [limit], level=1), "--wait", "60")))
        calling.start()
        until("the call comes", lambda: any("SetChargingProfile" in text for text in point.texts_of(heartbeat("w"))))
        expect("who waits", (calling.is_alive(), found), (True, []))
        point.texts_of(reply)
        calling.join()
        expect(f"the status behind {reply}", found[0][:2], (status, sent(b"set-profile")[1]))
        expect(f"what is said behind {reply}", re.fullmatch(rb"(?:[^\n]* remark: [^\n]*\n)*" + said, found[0][2]) is None, False)
    status, _, said = site.set(profile(5, [9], level=1), "--wait", "1")
    expect("nobody replies", (status, said.endswith(b"central: P1 didn't reply within 1 s\n")), (5, True))
    expect("nothing to wait for", site.set(profile(5, [9], level=1), "--wait", "60", "--dry-run")[0], 0)
    expect("for another point's calls", site.call("--status", "--wait", "60", at="/P2")[0], 0)


def lines_of_undo(site, operator, _point):
    """Which lines can be undone, and where."""
    fault = b"central: command line: the journal has no message on the line of --undo\n"
    expect("a line that isn't there", site.undo(line=99), (4, b"", fault))
    fault = b"central: command line: the line of --undo is of another point than the URL\n"
    status, _out, said = site.undo(at="/P2")
    expect("another point's", (status, said.endswith(fault)), (4, True))
    fault = b"central: command line: --undo LINE needs --data DIR, and goes without --all\n"
    expect("all points", site.undo("--all", at=""), (4, b"", fault))
    for number in ("0", "-1", "x", "2147483648"):
        expect(f"line {number!r}", site.call("--undo", number)[:2], (4, b""))


def tests():
    named = {
        "warnings": warnings, "connectors together": together, "refusals": refusals, "each point": each_point,
        "command lines": command_lines, "what is undone": undone, "ended transactions": ended_transactions,
        "lines of --undo": lines_of_undo, "later changes": later_changes, "calls that wait": waiting_calls, "outcomes": outcomes,
    }
    return [(name, of_site(test)) for name, test in named.items()]
