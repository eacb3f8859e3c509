"""How much of a PNG has which colour."""
import struct
import zlib

# How many bytes a pixel has, by the colour type of the PNG: red, green and blue, or these with how opaque it is.
PIXEL_BYTES = {2: 3, 6: 4}


def shares_of_colours(png):
    """Of the pixels of a PNG of eight bits a channel, the share of each colour."""
    (breadth, height, depth, kind), packed = struct.unpack(">IIBB", png[16:26]), b"".join(chunks(png, b"IDAT"))
    if depth != 8:
        raise ValueError(f"{depth} bits a channel")
    step = PIXEL_BYTES[kind]
    lines, stride = zlib.decompress(packed), step * breadth
    above, counts = bytearray(stride), {}
    for start in range(0, height * (stride + 1), stride + 1):
        above = unfiltered(lines[start], step, bytearray(lines[start + 1 : start + 1 + stride]), above)
        for at in range(0, stride, step):
            colour = tuple(above[at : at + 3])
            counts[colour] = counts.get(colour, 0) + 1
    return {colour: count / (breadth * height) for colour, count in counts.items()}


def chunks(png, wanted):
    """The contents of all chunks of a kind (the PNG specification, chapter 5)."""
    at = 8
    while at < len(png):
        length, kind = struct.unpack(">I4s", png[at : at + 8])
        if kind == wanted:
            yield png[at + 8 : at + 8 + length]
        at += length + 12


def unfiltered(kind, step, line, above):
    """A line of a PNG, with its filter taken off (the PNG specification, chapter 9)."""
    for at in range(len(line)):
        left, up, corner = (line[at - step], above[at], above[at - step]) if at >= step else (0, above[at], 0)
        distances = ((abs(up - corner), left), (abs(left - corner), up), (abs(left + up - 2 * corner), corner))
        nearest = min(distances, key=lambda it: it[0])[1] if kind == 4 else 0
        line[at] = (line[at] + (0, left, up, (left + up) // 2, nearest)[kind]) % 256
    return line
