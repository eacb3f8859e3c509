"""Site files, each with its first fault, as a replay names it, and with what `check` finds in it. tests/program.py plays them."""
import os
import re

TOP = os.path.dirname(os.path.realpath(__file__))

MAX_SITE_BYTES = 16_777_216

# On each line a site file, and its first fault, or `-` for none.
FAULTS = r'''
{"unit":"A","points":[{"id":"CP1","ceiling":63.0,"connectors":[32.0,31.0]}]} = -
{"more":[1],"points":[{"x":0,"connectors":[0],"ceiling":0,"id":"a.B_9-~"}],"unit":"W"} = -
{"unit":"A","points":[{"id":"CP1","ceiling":63,"connectors":[1]},{"id":"cp1","ceiling":0.1,"connectors":[1,2.5]}]} = -
{"unit":"A","points":[{"id":1,"id":"CP1","ceiling":01,"ceiling":63,"connectors":[1]}]} = -
{"unit":"A","points":[} = NotJson
{"unit":"A","points":[],} = NotJson
{'unit':'A'} = NotJson
{"unit":"\ud800"} = NotJson
{"unit":1-2} = NotJson
{"unit":"A","points":[{"id":"CP1","ceiling":63,"connectors":[1]}],"note":[{},[1,01,2]]} = NotJson
{"note":01,"unit":"A","points":[{"id":"CP1","ceiling":63,"connectors":[1]}],"note":1} = -
{"note":[{"a":01}],"unit":"A","points":[{"id":"CP1","ceiling":63,"connectors":[1]}],"note":1} = -
{"note":{"a":{"b":01},"a":[01]},"unit":"A","points":[{"id":"CP1","ceiling":63,"connectors":[1]}]} = NotJson
{"note":1,"unit":"A","points":[{"id":"CP1","ceiling":63,"connectors":[1]}],"note":01} = NotJson
{"a":01,"b":02,"a":1,"b":2,"unit":"A","points":[{"id":"CP1","ceiling":63,"connectors":[1]}]} = -
{"a":01,"b":02,"a":1,"unit":"A","points":[{"id":"CP1","ceiling":63,"connectors":[1]}]} = NotJson
{"a":[{"b":01,"c":02,"b":0}],"a":0,"unit":"A","points":[{"id":"CP1","ceiling":63,"connectors":[1]}]} = -
{"a":{1:2},"a":0,"unit":"A","points":[{"id":"CP1","ceiling":63,"connectors":[1]}]} = -
{"a":{1:2},"b":0,"unit":"A","points":[{"id":"CP1","ceiling":63,"connectors":[1]}]} = NotJson
{"points":[7],"unit":1,"points":[{"id":"CP1","ceiling":63,"connectors":[1]}],"unit":"A"} = -
{"unit":"A","points":[{"id":"CP1","ceiling":63,"connectors":[1]}],"points":null} = BadPoints
{"unit":"A","points":[{"connectors":2,"id":1,"connectors":[1],"ceiling":63,"id":"CP1"}]} = -
{1:2} = NotJson
{"unit":"A"} {} = NotJson
 = NotJson
[] = NotAnObject
"unit" = NotAnObject
{"unit":"kW","points":[]} = BadUnit
{"unit":"a","points":[]} = BadUnit
{"unit":null} = BadUnit
{"Unit":"A","points":[{"id":"C P"}]} = BadUnit
{"unit":"A","points":[]} = BadPoints
{"unit":"A"} = BadPoints
{"unit":"A","points":{}} = BadPoints
{"unit":"A","points":[{"id":"CP1","ceiling":63,"connectors":[1]},3]} = BadPoints
{"unit":"A","points":[{"id":"CP1","ceiling":-1,"connectors":[1]},3]} = BadCeiling
{"unit":"A","points":[{"id":"C P","ceiling":63,"connectors":[1]}]} = BadId
{"unit":"A","points":[{"id":"","ceiling":63,"connectors":[1]}]} = BadId
{"unit":"A","points":[{"id":"größer","ceiling":63,"connectors":[1]}]} = BadId
{"unit":"A","points":[{"id":"aaaaaaaaaabbbbbbbbbbccccccccccddddddddddeeeeeeeee","ceiling":63,"connectors":[1]}]} = BadId
{"unit":"A","points":[{"id":"aaaaaaaaaabbbbbbbbbbccccccccccddddddddddeeeeeeee","ceiling":63,"connectors":[1]}]} = -
{"unit":"A","points":[{"ceiling":1,"connectors":[1]}]} = BadId
{"unit":"A","points":[{"id":"CP1","ceiling":63,"connectors":[1]},{"id":"CP1","ceiling":63,"connectors":[1]}]} = SameId
{"unit":"A","points":[{"id":"CP1","ceiling":63,"connectors":[1]},{"id":"CP1","ceiling":-1,"connectors":[]}]} = SameId
{"unit":"A","points":[{"id":"C P","ceiling":-1,"connectors":[1]},{"id":"C P","ceiling":63,"connectors":[1]}]} = BadId
{"unit":"A","points":[{"id":"CP1","ceiling":8.15,"connectors":[]}]} = BadCeiling
{"unit":"A","points":[{"id":"CP1","ceiling":"1","connectors":[1]}]} = BadCeiling
{"unit":"A","points":[{"id":"CP1","ceilng":63.0,"connectors":[1]}]} = BadCeiling
{"unit":"A","points":[{"id":"CP1","ceiling":63,"connectors":[]}]} = BadConnectors
{"unit":"A","points":[{"id":"CP1","ceiling":63,"connectors":2}]} = BadConnectors
{"unit":"A","points":[{"id":"CP1","ceiling":63,"connectors":[1,null]}]} = BadConnectors
{"unit":"A","points":[{"id":"CP1","ceiling":63,"connectors":[100000000.1]}]} = BadConnectors
{"unit":"A","points":[{"id":"CP1","ceiling":63,"connectors":[1,-1]},{"id":"CP1"}]} = BadConnectors
{"unit":"A","points":[{"id":"CP1","ceiling":63.0,"connectors":[32.0]},{"id":"CP2","ceiling":0.1,"connectors":[1,2.5]},{"id":"cp1","ceiling":63.0,"connectors":[32.0]}]} = -
{"unit":"A","points":[{"id":"CP1","ceiling":63.0,"connectors":[32.0]},{"id":"CP2","ceiling":63.0,"connectors":[32.0]},{"id":"CP1","ceiling":-1,"connectors":[]}]} = SameId
{"unit":"A","points":[{"id":"CP1","ceiling":63.0,"connectors":[32.0]},{"id":"C P","ceiling":-1,"connectors":[32.0]},{"id":"CP1","ceiling":63.0,"connectors":[32.0]}]} = BadId
'''

# On each line a site file, and a piece of each line that `check` prints of it, with ` + ` between them, or `-` for none.
FOUND = r'''
{"unit":"A","points":[{"id":"CP1","ceiling":63.0,"connectors":[32.0,31.0]}]} => -
{"unit":"A","points":[{"id":"CP1","ceiling":63.0,"connectors":[32.0,32.0]}]} => points[0] (CP1): remark: the connectors' ceilings are 64.0 together
{"unit":"A","points":[{"id":"CP1","ceiling":"63","connectors":[1]}]} => points[0] (CP1): ceiling: "63" is a string; expected a number from 0 to 100000000.0 with at most one decimal
{"unit":"A","points":[{"id":"CP1","ceilng":63.0,"connectors":[1]}]} => is "ceilng" meant + line 1, column 35: warning: "ceilng" is no field
{"unit":"A","points":[{"id":"CP1","ceiling":63.25,"connectors":[32.05,1]}]} => points[0] (CP1): ceiling: 63.25 is a number + points[0] (CP1): connectors[0]: 32.05 is a number
{"unit":"A","points":[{"id":"CP1","ceiling":63.0,"connectors":2}]} => connectors: 2 is a number; expected a list of 1 to 64 ceilings
{"unit":"A","points":{"id":"CP1"}} => points: found an object
{"unit":"kW","points":[]} => unit: "kW" is a string; expected "A" or "W" + points: 0 entries
{"unit":"A","points":[{"id":"CP1","ceiling":1,"connectors":[1]},{"id":"CP2","ceiling":1,"connectors":[1]},{"id":"CP1","ceiling":1,"connectors":[1]}]} => points[2] (CP1): id: points[0] has it too
{"unit":"A","points":[{"id":"CP1","ceiling":1,"connectors":[1]},7,{"id":"C P","connectors":null}]} => points[1]: 7 is a number + points[2] (C P): id: "C P" is a string + points[2] (C P): ceiling: it is absent + points[2] (C P): connectors: null counts as absent
{"unit":"A","points":[{"id":"CP1","ceiling":63.0,"connectors":[32.0,]}]} => line 1, column 69: the JSON breaks where ']' is found: the comma before it is one too many
{"unit":"A",// amperes => line 1, column 13: the JSON breaks where '/' is found: JSON has no comments
{"unit":"A","points":[{"id":"CP1","ceiling":63.0,"connectors":[32.0]}] => line 1, column 71: the JSON breaks where it ends too early
{"unit":"A" "points":[]} => line 1, column 13: the JSON breaks where '"' is found: a comma is missing before it
{"unit":"A","points":[{"id":"CP1","ceiling":.5}]} => line 1, column 45: the JSON breaks where '.' is found
{"unit":"A","points":[{"id":"CP1","ceiling":1,"connectors":[1],"phases":3}],"name":"garage"} => column 64: warning: "phases" is no field that is looked at + column 77: warning: "name" is no field
'''

# How the first line of `check` begins where this is the first fault, behind the name of the file.
FIRST_LINES = {
    "NotUtf8": r"the file: it isn't UTF-8 from the byte at offset \d+ on",
    "NotJson": r"line \d+, column \d+: (?!warning|remark)",
    "NotAnObject": r"the file: .*; expected an object such as ",
    "BadUnit": r"the file: unit: ",
    "BadPoints": r"(the file: points|points\[\d+\]): (?!warning|remark)",
    "BadId": r"points\[\d+\][^:]*: id: (?!points\[)",
    "SameId": r"points\[\d+\] \(\w+\): id: points\[0\] has it too",
    "BadCeiling": r"points\[\d+\] \([^:]*\): ceiling: ",
    "BadConnectors": r"points\[\d+\] \([^:]*\): connectors(\[\d+\])?: ",
}


def site_of(*points):
    return f'{{"unit":"A","points":[{",".join(points)}]}}'.encode()


def point(id, connectors="1"):
    return f'{{"id":"{id}","ceiling":64,"connectors":[{connectors}]}}'


def site_files():
    """Each with its first fault, or None."""
    for row in FAULTS.strip("\n").split("\n"):
        content, _, fault = row.rpartition(" = ")
        yield content.encode(), None if fault == "-" else fault
    yield from listed_sites()
    # Of two fields of a name the last counts, so that a malformed number may stand in the first.
    yield b'{"points":[{"id":01}],"unit":"W","points":[%s],"unit":"A"}' % point("CP1").encode(), None
    # The largest site.
    yield site_of(*(point(f"{number:048}", ",".join(["32"] * 64)) for number in range(1_000))), None
    yield b'{"unit":"\xff"}', "NotUtf8"
    spaces = b" " * (MAX_SITE_BYTES - len(site_of(point("CP1"))))
    yield site_of(point("CP1")) + spaces, None
    yield site_of(point("CP1")) + spaces + b" ", "TooLarge"
    yield b"\xff" * (MAX_SITE_BYTES + 1), "TooLarge"


def listed_sites():
    """The site files of tests/site_faults, each behind its first fault; `@` stands for all that a point has but its identity."""
    with open(os.path.join(TOP, "site_faults"), "rb") as file:
        for line in file.read().splitlines():
            fault, _, text = line.partition(b" ")
            yield text.replace(b"@", b'"ceiling":16.1,"connectors":[32.0,0.1]'), fault.decode()


def found_in_files():
    """Site files with a piece of each line that `check` prints of them. Beside that they are too many, at most 2,000 faults are told."""
    for row in FOUND.strip("\n").split("\n"):
        content, _, pieces = row.partition(" => ")
        yield content.encode(), [] if pieces == "-" else pieces.split(" + ")
    yield b'{"unit":"\xff"}', ["the file: it isn't UTF-8 from the byte at offset 9 on"]
    yield b"\xef\xbb\xbf{}", ["line 1, column 1: the JSON breaks where U+FEFF is found: a byte order mark"]
    yield b'{"unit":"A",\r\n "points":[}\r\n', ["line 2, column 12: the JSON breaks where '}' is found"]
    many = [point(f"CP{number}") for number in range(1_001)]
    yield site_of(*many[:1_000]), []
    yield site_of(*many), ["points: 1001 entries; expected 1 to 1000"]
    yield site_of(point("CP1", ",".join(["1"] * 64))), []
    yield site_of(point("CP1", ",".join(["1"] * 65))), ["connectors: 65 entries; expected 1 to 64", "remark"]
    for count in (1_000, 2_000, 2_001):
        too_many = ["points: %d entries; expected 1 to 1000" % count] if count > 1_000 else []
        numbers = [f"points[{number}]: {number} is a number" for number in range(min(count, 2_000))]
        more = ["warning: there are more than 2000 faults and remarks"] if count > 2_000 else []
        yield site_of(*map(str, range(count))), too_many + numbers + more


def first_line_problems(fault, lines):
    """What is wrong with the lines of `check`, where a replay names this fault, or reads the file."""
    if fault is None:
        if any(": warning: " not in line and ": remark: " not in line for line in lines):
            yield f"a fault in a file that is read: {lines[:3]}"
    elif not lines or not re.match(FIRST_LINES[fault], lines[0]):
        yield f"{lines[:1]}, where a replay says {fault}"


def found_problems(pieces, lines):
    """What is wrong with the lines of `check`, of which each has its piece."""
    if len(lines) != len(pieces):
        yield f"{len(lines)} lines, wanted {len(pieces)}: {lines[:3]}"
    yield from (f"{line!r}, wanted {piece!r}" for line, piece in zip(lines, pieces) if piece not in line)
