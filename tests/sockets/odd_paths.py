"""Paths that try to be another's, and whom each names. Nothing in a path is decoded or left out."""
import contextlib

from raw_client import CLOSE
from texts import OCPP, ask

PROTOCOL = f"Sec-WebSocket-Protocol: {OCPP}"

# Paths, and whom each names: an operator of P3, the point P3, or nobody that the site has.
OPERATOR, POINT, NOBODY = "operator", "point", "nobody"
PATHS = {
    "/operator/P3": OPERATOR, "/operator/P3?x=/operator/P1": OPERATOR,
    "/P3": POINT, "/ocpp/P3": POINT, "//operator/P3": POINT, "/./operator/P3": POINT, "/x/../operator/P3": POINT, "/operator//P3": POINT,
    "/operator/./P3": POINT, "/operator/x/../P3": POINT, "/operators/P3": POINT, "/OPERATOR/P3": POINT, "/%6fperator/P3": POINT,
    "/operator;/P3": POINT, "/operator%2f/P3": POINT, "/P3?/operator/P1": POINT, "/operator/P1/../P3": POINT,
    "/": NOBODY, "/operator/": NOBODY, "/operator": NOBODY, "/operator/P3/": NOBODY, "/operator/%50%33": NOBODY, "/operator%2fP3": NOBODY,
    "/P%33": NOBODY, "/p3": NOBODY, "/operator/p3": NOBODY, "/P3/": NOBODY, "/P3%00": NOBODY, "/operator/P3;x": NOBODY, "/P3.": NOBODY,
    "/operator/..": NOBODY, "/..": NOBODY,
}


def statuses_with_keys(path, named):
    """What comes of a path where there are keys: by the point, or who is an operator, whose key it is. Another point's key is P2's."""
    plain = path.partition("?")[0]
    is_operators = plain.startswith("/operator/") and plain.count("/") == 2
    own = path.replace("P3", "P2").replace("p3", "p2").replace("%33", "%32")
    # Whose key it is, is asked before whether the site has the point.
    yield path, "P2", 401 if is_operators else 403
    yield own, "P2", POINT if named == POINT else 401 if is_operators else 403
    yield path, "ann", named if is_operators else 401
    yield path, None, 401


def who_is_let_in(client, path, headers):
    """Whom a path names with these headers: by whether a new client is let in, and whether it may ask for a schedule."""
    with client:
        response = client.shake_hands(path, [PROTOCOL, *headers])
        if response is None or response.status != 101:
            return response and response.status
        with contextlib.suppress(OSError):
            client.send_text(ask("a"))
        while True:
            frame = client.read_frame()
            if frame is None or frame.opcode == CLOSE:
                return NOBODY
            if frame.payload.startswith(b'[3,"a"'):
                return OPERATOR
            if frame.payload.startswith(b'[4,"a","NotImplemented"'):
                return POINT
