"""The cue listing of a track of a film, read from its bytes by a program of its own: what cue_film must print.

    listing.py FILM TRACK TYPE [words]

It knows films as ffmpeg makes them: whole atoms, sbgp and sgpd, and the refusals that such a film can get.
"""
import struct
import sys

HELD = 4194304


def atoms(data, at, end):
    """Type and body of each atom from a place to an end."""
    while at < end:
        size, kind = struct.unpack(">I4s", data[at : at + 8])
        head = 8
        if size == 1:
            size, head = struct.unpack(">Q", data[at + 8 : at + 16])[0], 16
        stop = end if size == 0 else at + size
        yield kind, at + head, stop
        at = stop


def inside(data, span, kind, number=0):
    """The body of the atom of a type with this number, from 0; None where there is none."""
    found = [(a, e) for k, a, e in atoms(data, *span) if k == kind]
    return found[number] if number < len(found) else None


def number(n):
    out = b""
    while n > 127:
        out += bytes([n % 128 + 128])
        n //= 128
    return out + bytes([n])


def entries(body, kind):
    """The bytes of each entry of an sgpd."""
    version = body[0]
    at = 8 + 4 * min(version, 2)
    count = struct.unpack(">I", body[at : at + 4])[0]
    at += 4
    length = struct.unpack(">I", body[8:12])[0] if version else {b"roll": 2, b"prol": 2, b"rap ": 1, b"tele": 1, b"sap ": 1}[kind]
    out = []
    for _ in range(count):
        here = length
        if version and length == 0:
            here = struct.unpack(">I", body[at : at + 4])[0]
            at += 4
        out.append(body[at : at + here])
        at += here
    return out


def meaning(entry, kind):
    """An entry's value: its bytes in a listing, and its words."""
    if kind in (b"roll", b"prol"):
        distance = struct.unpack(">h", entry[:2])[0]
        return number(distance + 32768), f"distance {distance}"
    if kind == b"rap ":
        known, n = entry[0] >> 7, entry[0] & 127
        return number(known) + number(n), f"leading samples {'' if known else 'not '}known, {n}"
    raise SystemExit(f"no such entry is made by ffmpeg: {kind}")


def listing(data, track, kind):
    span = inside(data, (0, len(data)), b"moov")
    # of a longer film the moov alone is held, with its header of 8 bytes
    if span and HELD < len(data) and HELD < span[1] - span[0] + 8:
        return None, "too long"
    span = span and inside(data, span, b"trak", track)
    if span is None:
        return None, "refused 60"
    for container in (b"mdia", b"minf", b"stbl"):
        span = inside(data, span, container)
        if span is None:
            return None, "refused 61"
    bodies = [(k, data[a:e]) for k, a, e in atoms(data, *span) if k in (b"sbgp", b"csgp", b"sgpd")]
    tables = [b for k, b in bodies if k == b"sbgp" and b[4:8] == kind]
    if not tables:
        return None, "refused 50"
    groups = [b for k, b in bodies if k == b"sgpd" and b[4:8] == kind]
    if not groups:
        return None, "refused 52"
    described = entries(groups[0], kind)
    table = tables[0]
    at = 12 if table[0] == 1 else 8
    count = struct.unpack(">I", table[at : at + 4])[0]
    stretches = []
    covered = 0
    for k in range(count):
        samples, index = struct.unpack(">II", table[at + 4 + 8 * k : at + 12 + 8 * k])
        if index == 0:
            means = number(0), "no group"
        elif len(described) < index:
            means = number(1), "an index past the entries"
        else:
            value, words = meaning(described[index - 1], kind)
            means = number(2) + value, words
        covered += samples
        if samples == 0:
            continue
        if stretches and stretches[-1][1] == means:
            stretches[-1][0] += samples
        else:
            stretches.append([samples, means])
    out = kind + number(covered)
    words = [f"type {kind.decode()}, covered samples {covered}"]
    first = 0
    for samples, (value, told) in stretches:
        out += number(samples) + value
        words.append(f"samples {first} to {first + samples - 1}: {told}")
        first += samples
    return out, "\n".join(words)


out, words = listing(open(sys.argv[1], "rb").read(), int(sys.argv[2]), sys.argv[3].encode())
print(words if out is None or sys.argv[4:] == ["words"] else out.hex())
