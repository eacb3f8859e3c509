"""Tests of `central explain --zone`, for tests/program.py. Expected local times are by hand, or those of Python's `zoneinfo`, which
reads the same files by code of its own."""
import json
import os
import random
import re
import zoneinfo
from datetime import datetime, timedelta, timezone

from case_folders import Case

DATABASE = "/usr/share/zoneinfo"
UTC = timezone.utc
REFUSED = b"central: command line: --zone names no time zone of /usr/share/zoneinfo, such as Europe/Berlin\n"
DAYLONG = ["--point", "CP1", "--connector", "1", "--duration", "86400", "--start"]

# Tables of the script of examples/night-profile, by hand: the zone, the start, and the table.
BY_HAND = (
    ("Europe/Berlin", "2025-03-29T12:00:00Z", """\
CP1, connector 1, from 2025-03-29 13:00 to 2025-03-30 14:00 (1 d). The limit in A, times in Europe/Berlin (UTC+1).
2025-03-30 01:00 UTC: the clocks go from UTC+1 to UTC+2.

from              to                length   limit  why
2025-03-29 13:00             23:00  10 h    10.0 A  TxDefaultProfile 1, stack level 0, at connector 0
           23:00  2025-03-30 08:00  8 h     32.0 A  TxDefaultProfile 2, stack level 1, at connector 0
2025-03-30 08:00             14:00  6 h     10.0 A  TxDefaultProfile 1, stack level 0, at connector 0
"""),
    ("Europe/Berlin", "2025-10-25T12:00:00Z", """\
CP1, connector 1, from 2025-10-25 14:00 to 2025-10-26 13:00 (1 d). The limit in A, times in Europe/Berlin (UTC+2).
2025-10-26 01:00 UTC: the clocks go from UTC+2 to UTC+1.

from              to                length   limit  why
2025-10-25 14:00  2025-10-26 00:00  10 h    10.0 A  TxDefaultProfile 1, stack level 0, at connector 0
2025-10-26 00:00             07:00  8 h     32.0 A  TxDefaultProfile 2, stack level 1, at connector 0
           07:00             13:00  6 h     10.0 A  TxDefaultProfile 1, stack level 0, at connector 0
"""),
    ("America/New_York", "2025-01-03T12:00:00Z", """\
CP1, connector 1, from 2025-01-03 07:00 to 2025-01-04 07:00 (1 d). The limit in A, times in America/New_York (UTC-5).

from              to                length   limit  why
2025-01-03 07:00             17:00  10 h    10.0 A  TxDefaultProfile 1, stack level 0, at connector 0
           17:00  2025-01-04 01:00  8 h     32.0 A  TxDefaultProfile 2, stack level 1, at connector 0
2025-01-04 01:00             07:00  6 h     10.0 A  TxDefaultProfile 1, stack level 0, at connector 0
"""),
    ("Etc/UTC", "2025-01-03T12:00:00Z", """\
CP1, connector 1, from 2025-01-03 12:00 to 2025-01-04 12:00 (1 d). The limit in A, times in Etc/UTC (UTC).

from              to                length   limit  why
2025-01-03 12:00             22:00  10 h    10.0 A  TxDefaultProfile 1, stack level 0, at connector 0
           22:00  2025-01-04 06:00  8 h     32.0 A  TxDefaultProfile 2, stack level 1, at connector 0
2025-01-04 06:00             12:00  6 h     10.0 A  TxDefaultProfile 1, stack level 0, at connector 0
"""),
)

# An hour that begins before the clocks go back, and ends when they show the same again.
DOUBLED = """\
CP1, connector 1, from 2025-10-26 02:30 to 2025-10-26 02:30 (1 h). The limit in A, times in Europe/Berlin (UTC+2).
2025-10-26 01:00 UTC: the clocks go from UTC+2 to UTC+1.

from              to     length   limit  why
2025-10-26 02:30  02:30  1 h     32.0 A  TxDefaultProfile 2, stack level 1, at connector 0

Profiles that never set the limit in this time:
  TxDefaultProfile 1, stack level 0, at connector 0: A profile of its purpose with a higher stack level prevails.
"""

NO_ZONES = (
    "", ".", "..", "/", "../zoneinfo/Europe/Berlin", "Europe/../Europe/Berlin", "/usr/share/zoneinfo/Europe/Berlin", "./Europe/Berlin",
    "Europe//Berlin", "/Europe/Berlin", "Europe/Berlin/", "Europe/Berlin ", " Europe/Berlin", "Europe/Berlin\n", "Europe\\Berlin",
    "Europe/B\u00e9rlin", "Mars/Olympus_Mons", "zone.tab", "right/Europe/Berlin", "E" * 64, "E" * 65, "A/" * 32 + "B",
)

# Clocks that change by half an hour, a day or odd seconds, twice a year or around Ramadan, or never.
ZONES = (
    "Europe/Berlin", "Europe/London", "Europe/Dublin", "America/New_York", "America/St_Johns", "Australia/Lord_Howe", "Asia/Kathmandu",
    "Asia/Pyongyang", "Africa/Casablanca", "Africa/Monrovia", "Pacific/Apia", "Pacific/Kiritimati", "Pacific/Chatham",
    "Antarctica/Troll", "America/Caracas", "Etc/GMT+12", "Etc/GMT-14", "UTC", "EST5EDT",
)

# Some days before a change that isn't one of a season.
ODD = {
    "Africa/Monrovia": (1972, 1, 5), "Pacific/Apia": (2011, 12, 28), "Pacific/Kiritimati": (1994, 12, 29), "Asia/Pyongyang": (2015, 8, 13),
    "America/Caracas": (2016, 4, 29),
}

# Limits that change at 21:30 and 06:00 UTC, since 1970.
NIGHTS = json.dumps([2, "night", "SetChargingProfile", {"connectorId": 0, "csChargingProfiles": {
    "chargingProfileId": 2, "stackLevel": 1, "chargingProfilePurpose": "TxDefaultProfile", "chargingProfileKind": "Recurring",
    "recurrencyKind": "Daily", "chargingSchedule": {
        "duration": 30600, "startSchedule": "1970-01-01T21:30:00Z", "chargingRateUnit": "A",
        "chargingSchedulePeriod": [{"startPeriod": 0, "limit": 24}]}}}])


class CaseInZone(Case):
    """A case of `explain` by the clock of Etc/UTC."""

    @property
    def words(self):
        return [*super().words, "--zone", "Etc/UTC"]

    @property
    def wanted(self):
        table, *others = super().wanted
        return table.replace(b"times in UTC.", b"times in Etc/UTC (UTC)."), *others


def has_zones():
    """Whether the system has a database of zones."""
    return os.path.isfile(os.path.join(DATABASE, "Europe/Berlin")) and os.path.isfile(os.path.join(DATABASE, "Etc/UTC"))


def ahead_of_utc(offset):
    """`UTC+5:30` of an offset."""
    seconds = round(offset.total_seconds())
    hours, rest = divmod(abs(seconds), 3600)
    text = f"{hours}" + (f":{rest // 60:02}" if rest else "") + (f":{rest % 60:02}" if rest % 60 else "")
    return "UTC" + (("+" if seconds > 0 else "-") + text if seconds else "")


def changes(zone, start, end):
    """The instants behind the start and up to the end at which the zone's clock changes, each with its offsets before and after."""
    at = start
    while at < end:
        then = min(at + timedelta(hours=1), end)
        before, after = (moment.astimezone(zone).utcoffset() for moment in (at, then))
        if before != after:
            low, high = at, then
            while high - low > timedelta(seconds=1):
                middle = low + (high - low) // 2 // timedelta(seconds=1) * timedelta(seconds=1)
                low, high = (middle, high) if middle.astimezone(zone).utcoffset() == before else (low, middle)
            yield high, before, after
        at = then


def local_table(in_utc, told, zone):
    """The table with the times of a zone, of the one in UTC, whose times it doesn't use, and what is told to programs."""
    instants = [datetime.fromisoformat(text[:-1] + "+00:00") for part in told["intervals"] for text in (part["start"], part["end"])]
    start = datetime.fromisoformat(told["start"][:-1] + "+00:00")
    end = start + timedelta(seconds=told["duration"])
    local = [moment.astimezone(zone) for moment in [start, end, *instants]]
    clock = "%H:%M:%S" if any(moment.second for moment in local) else "%H:%M"
    head, *rest = in_utc.split("\n")
    heading = re.sub(
        ", from .* to .* \\((.*)\\)\\. (.*), times in UTC\\.$",
        lambda found: f", from {local[0]:%Y-%m-%d {clock}} to {local[1]:%Y-%m-%d {clock}} ({found[1]}). {found[2]}, "
        f"times in {zone.key} ({ahead_of_utc(local[0].utcoffset())}).", head)
    lines = [heading]
    for moment, before, after in changes(zone, start, end):
        shown = f"{moment:%Y-%m-%d %H:%M}" + (f":{moment.second:02}" if moment.second else "")
        lines.append(f"{shown} UTC: the clocks go from {ahead_of_utc(before)} to {ahead_of_utc(after)}.")
    cells, day = [], None
    for begins, ends in zip(local[2::2], local[3::2]):
        cells.append((f"{begins:{clock}}" if begins.date() == day else f"{begins:%Y-%m-%d {clock}}",
                      f"{ends:{clock}}" if ends.date() == begins.date() else f"{ends:%Y-%m-%d {clock}}"))
        day = begins.date()
    from_width, to_width = (max(len(cell[place]) for cell in [("from", "to"), *cells]) for place in (0, 1))
    # Behind the times a line is what it is in UTC.
    behind = re.match("from +to +", rest[1]).end()
    lines += ["", f"{'from':{from_width}}  {'to':{to_width}}  {rest[1][behind:]}"]
    lines += [f"{cell[0]:>{from_width}}  {cell[1]:>{to_width}}  {line[behind:]}" for cell, line in zip(cells, rest[2:])]
    return "\n".join([*lines, *rest[2 + len(cells):]])


def random_days(number):
    """A zone, a start and a duration in seconds: half of them around a change of the zone's clock, if one follows."""
    drawn = random.Random(number)
    zone = zoneinfo.ZoneInfo(ZONES[number % len(ZONES)])
    start = datetime(1970, 1, 3, tzinfo=UTC) + timedelta(seconds=drawn.randrange(36_000 * 86400))
    if zone.key in ODD and drawn.random() < 0.5:
        start = datetime(*ODD[zone.key], tzinfo=UTC)
    if drawn.random() < 0.6:
        found = next(changes(zone, start, start + timedelta(days=200)), None)
        start = found[0] - timedelta(seconds=drawn.choice([0, 1, 3600, drawn.randrange(2 * 86400)])) if found else start
    if drawn.random() < 0.7:
        start -= timedelta(seconds=start.second)
    return zone, start, drawn.choice([1, 3600, 86400, drawn.randrange(1, 31 * 86400), 31 * 86400])


def random_problems(explain, count):
    """Where tables at random are otherwise than by `zoneinfo`."""
    script = f"1970-01-01T00:00:00Z operator CP1 {NIGHTS}\n".encode()
    # Egypt's clocks were back in the month of Ramadan: two changes within 31 days.
    twice = zoneinfo.ZoneInfo("Africa/Cairo"), datetime(2010, 8, 10, 12, tzinfo=UTC), 31 * 86400
    for zone, start, seconds in [twice, *map(random_days, range(count))]:
        words = ["--point", "CP1", "--connector", "1", "--start", f"{start:%Y-%m-%dT%H:%M:%SZ}", "--duration", f"{seconds}"]
        in_utc, told = (explain([*words, *more], script).stdout for more in ([], ["--json"]))
        wanted = local_table(in_utc.decode(), json.loads(told), zone)
        done = explain([*words, "--zone", zone.key], script)
        if (done.returncode, done.stdout.decode(), done.stderr) != (0, wanted, b""):
            yield f"{' '.join(words)} --zone {zone.key}: {done}, wanted {wanted}"


def refused(done, error, status):
    return [] if (done.stdout, done.stderr, done.returncode) == (b"", error, status) else [f"{done}"]


def zone_problems(explain, script):
    """`explain --zone`: the options of a run, beside those of its site, and a script give what comes of it."""
    noon = [*DAYLONG, "2025-01-03T12:00:00Z"]
    failed = [name for name in NO_ZONES if refused(explain([*noon, f"--zone={name}"], script), REFUSED, 4)]
    yield "explain: no name of a zone", [f"taken, or refused otherwise: {failed}"] if failed else []
    elsewhere = b"central: command line: --zone is for the table, and goes without --json and --picture\n"
    for more in (["--json"], ["--picture", "p.svg"], ["--json", "--picture", "p.html"]):
        yield f"explain --zone with {more}", refused(explain([*noon, "--zone", "Europe/Berlin", *more], script), elsewhere, 4)
    if not has_zones():
        print(f"tests/zones.py: {DATABASE} has no zones (package tzdata): the tables of zones are left out")
        return
    for zone, start, wanted in BY_HAND:
        done = explain([*DAYLONG, start, "--zone", zone], script)
        yield f"explain in {zone} from {start}", [] if (done.stdout.decode(), done.stderr, done.returncode) == (wanted, b"", 0) else [f"{done}"]
    hour = [*DAYLONG[:5], "3600", "--start", "2025-10-26T00:30:00Z", "--zone", "Europe/Berlin"]
    done = explain(hour, script)
    yield "explain in an hour that comes twice", [] if done.stdout.decode() == DOUBLED else [f"{done}"]
    past = b"central: command line: with --zone it begins in 1970 or later by that clock, and ends before 9999-12-31\n"
    for zone, start in (("America/New_York", "1970-01-01T04:59:59Z"), ("Europe/Berlin", "9999-12-30T00:00:00Z")):
        yield f"explain in {zone} from {start}", refused(explain([*DAYLONG, start, "--zone", zone], script), past, 4)
    done = explain([*DAYLONG, "1970-01-01T05:00:00Z", "--zone", "America/New_York"], script)
    yield "explain from 1970 on in New York", [] if b"from 1970-01-01 00:00 to 1970-01-02 00:00 (1 d)" in done.stdout else [f"{done}"]
    for name in ("Europe", "leapseconds"):
        if os.path.exists(os.path.join(DATABASE, name)):
            done = explain([*noon, "--zone", name], script)
            ok = done.returncode == 3 and not done.stdout
            ok = ok and re.fullmatch(f"central: {DATABASE}/{name}: .*\ncentral: device: read\n", done.stderr.decode())
            yield f"explain with the file {name}", [] if ok else [f"{done}"]
    yield "explain in zones at random", list(random_problems(explain, 4 * len(ZONES)))
