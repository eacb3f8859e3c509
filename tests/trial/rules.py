"""What a point's profiles mean and how they change, written from docs/MEANING.md and nothing else."""
import datetime

POINT_CEILING, CONNECTOR_CEILING = 63.0, 32.0


def seconds(instant):
    """An instant of the form YYYY-MM-DDThh:mm:ssZ in seconds since 1970."""
    moment = datetime.datetime.strptime(instant, "%Y-%m-%dT%H:%M:%SZ")
    return int(moment.replace(tzinfo=datetime.timezone.utc).timestamp())


def instant(second):
    return datetime.datetime.fromtimestamp(second, datetime.timezone.utc).strftime("%Y-%m-%dT%H:%M:%SZ")


def of_transactions(row, connector):
    return row["connectorId"] == connector and row["csChargingProfiles"]["chargingProfilePurpose"] == "TxProfile"


def slot(row):
    profile = row["csChargingProfiles"]
    return row["connectorId"], profile["chargingProfilePurpose"], profile["stackLevel"]


def installed(rows, row):
    identity = row["csChargingProfiles"]["chargingProfileId"]
    return [old for old in rows if old["csChargingProfiles"]["chargingProfileId"] != identity and slot(old) != slot(row)] + [row]


def cleared(rows, criteria):
    names = {"id": "chargingProfileId", "chargingProfilePurpose": "chargingProfilePurpose", "stackLevel": "stackLevel"}

    def matches(row):
        return all(row["connectorId"] == value if name == "connectorId" else row["csChargingProfiles"][names[name]] == value
                   for name, value in criteria.items())
    return [row for row in rows if not matches(row)]


def without_transaction(rows, connector):
    return [row for row in rows if not of_transactions(row, connector)]


def rate(profile, base, second):
    """The limit that a profile gives at a second, or None."""
    schedule = profile["chargingSchedule"]
    if second < seconds(profile.get("validFrom", "1970-01-01T00:00:00Z")) or second >= seconds(profile.get("validTo", "9999-12-31T23:59:59Z")):
        return None
    relative = profile["chargingProfileKind"] == "Relative" or "startSchedule" not in schedule
    offset = second - (base if relative else seconds(schedule["startSchedule"]))
    if offset < 0:
        return None
    if profile["chargingProfileKind"] == "Recurring":
        offset %= 86400 if profile["recurrencyKind"] == "Daily" else 604800
    if "duration" in schedule and offset >= schedule["duration"]:
        return None
    begun = [period["limit"] for period in schedule["chargingSchedulePeriod"] if period["startPeriod"] <= offset]
    return begun[-1] if begun else None


def limit(rows, started, connector, asked, second):
    """The limit of a connector above 0 at a second; started is the second of its transaction's start, or None."""
    def prevailing(purpose):
        own = {row["csChargingProfiles"]["stackLevel"] for row in rows if slot(row)[:2] == (connector, purpose)}
        best = None
        for row in rows:
            profile = row["csChargingProfiles"]
            level = profile["stackLevel"]
            at_zero = row["connectorId"] == 0 and purpose != "TxProfile" and level not in own
            if profile["chargingProfilePurpose"] != purpose or not (row["connectorId"] == connector or at_zero):
                continue
            given = rate(profile, asked if started is None else started, second)
            if given is not None and (best is None or level > best[0]):
                best = level, given
        return None if best is None else best[1]
    of_car = prevailing("TxProfile") if started is not None else None
    bounds = [POINT_CEILING, CONNECTOR_CEILING, prevailing("ChargePointMaxProfile"),
              prevailing("TxDefaultProfile") if of_car is None else of_car]
    return min(bound for bound in bounds if bound is not None)


def schedule(rows, started, connector, asked, duration):
    """The periods of a composite schedule, second by second."""
    periods = []
    for offset in range(duration):
        now = limit(rows, started, connector, asked, asked + offset)
        if not periods or periods[-1]["limit"] != now:
            periods.append({"startPeriod": offset, "limit": now})
    return periods
