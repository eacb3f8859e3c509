"""Sites, and the texts of operators and points."""
import json

MIDNIGHT = "2025-01-01T00:00:00Z"
OCPP = "ocpp1.6"


def compact(value):
    return json.dumps(value, separators=(",", ":"), ensure_ascii=False)


def site(points):
    """The text of a site file: the ceiling and the connectors' limits of each point by its identity."""
    entries = [{"id": name, "ceiling": ceiling, "connectors": limits} for name, (ceiling, limits) in points.items()]
    return compact({"unit": "A", "points": entries})


def plain_site(count, connectors=2):
    """A site of the points P1, P2, .."""
    return site({f"P{number}": (63.0, [32.0] * connectors) for number in range(1, count + 1)})


def call(message_id, action, payload=None):
    return compact([2, message_id, action, {} if payload is None else payload])


def result(message_id, payload):
    return compact([3, message_id, payload])


def error(message_id, code, description=""):
    return compact([4, message_id, code, description, {}])


def accepted(message_id):
    return result(message_id, {"status": "Accepted"})


def rejected(message_id, reason):
    return result(message_id, {"status": "Rejected", "reason": reason})


def heartbeat(message_id):
    return call(message_id, "Heartbeat")


def start(message_id, connector=1, tag="T1", timestamp=MIDNIGHT):
    fields = {"connectorId": connector, "idTag": tag, "meterStart": 0, "timestamp": timestamp}
    return call(message_id, "StartTransaction", fields)


def ask(message_id, connector=1, duration=3600, **more):
    return call(message_id, "GetCompositeSchedule", {"connectorId": connector, "duration": duration, **more})


def profile(number, limits, level=0, purpose="TxDefaultProfile", kind="Absolute", step=3600, **more):
    """A profile with so many limits, each for so many seconds, from midnight on, or from its base where it is Relative."""
    periods = [{"startPeriod": place * step, "limit": limit} for place, limit in enumerate(limits)]
    begin = {} if kind == "Relative" else {"startSchedule": MIDNIGHT}
    schedule = {**begin, "chargingRateUnit": "A", "chargingSchedulePeriod": periods}
    head = {"chargingProfileId": number, "stackLevel": level, "chargingProfilePurpose": purpose, "chargingProfileKind": kind}
    if "transactionId" in more:
        head = {"chargingProfileId": number, "transactionId": more.pop("transactionId"), **head}
    return {**head, **more, "chargingSchedule": schedule}


def install(message_id, fields, connector=0):
    return call(message_id, "SetChargingProfile", {"connectorId": connector, "csChargingProfiles": fields})


def limit_of(fields):
    """The limit of the first period that a SetChargingProfile's fields have."""
    return fields["csChargingProfiles"]["chargingSchedule"]["chargingSchedulePeriod"][0]["limit"]


def clear(message_id, **criteria):
    return call(message_id, "ClearChargingProfile", criteria)


# The first call to each point: it clears what the point had before.
CALL_0 = call("0", "ClearChargingProfile")


def install_call(number, fields, connector=0):
    """The call of this number that an install becomes; limits have one digit behind the point in it."""
    return call(str(number), "SetChargingProfile", {"connectorId": connector, "csChargingProfiles": fields})


def without_moment(text):
    """An answer of a point without its present moment."""
    frame = json.loads(text)
    if isinstance(frame[2], dict):
        frame[2].pop("currentTime", None)
    return compact(frame)
