"""Bodies made at random and changed where they are costly: search.py FOLDER SECONDS SEED. FOLDER has search.elf (controller/search)."""

import random
import struct
import subprocess
import sys
import time

BODY = 16384
FOLDER, SECONDS, SEED = sys.argv[1], float(sys.argv[2]), int(sys.argv[3])
chance = random.Random(SEED)

# empty-far-8 of bench/src/listing.rs
KNOWN = dict(kind=b"abcd", code=1, length=2048, turns=18, spread=0, far=224, seed=0, run=1, count=0, patterns=1, entries=3571, size=0, unlike=0, form=0, share=1)


def atom(kind, body):
    return struct.pack(">I4s", len(body) + 8, kind) + body


def packed(numbers, width):
    if width == 4:
        numbers = numbers + [0] * (len(numbers) % 2)
        return bytes(a << 4 | b for a, b in zip(numbers[::2], numbers[1::2]))
    return b"".join(n.to_bytes(width // 8, "big") for n in numbers)


def table(p):
    """A csgp of one pattern, or of several, whose indices come in turns of a few that are hard to find."""
    width = 4 << p["code"]
    most = min(p["entries"], (1 << width) - 1)
    apart = p["entries"] // 16 + 1
    places = [lambda j: p["far"] - j, lambda j: (j % 16 + 1) * apart - j // 16, lambda j: random.Random(p["seed"] + j).randint(1, most)]
    named = [max(1, min(most, places[p["spread"]](j))) for j in range(p["turns"])]
    indices = [named[k // p["run"] % len(named)] for k in range(p["length"])]
    each = p["length"] // p["patterns"]
    if p["patterns"] == 1 or each == 0:
        front = struct.pack(">I4sIII", 0x3C | p["code"], p["kind"], 1, p["length"], p["count"] or p["length"])
        return atom(b"csgp", front + packed(indices, width))
    pairs = struct.pack(">HH", each, each) * p["patterns"]
    front = struct.pack(">I4sI", 0x28 | p["code"], p["kind"], p["patterns"])
    return atom(b"csgp", front + pairs + packed(indices[: each * p["patterns"]], width))


def descriptions(p, room):
    """An sgpd whose entries have lengths, one length, or a share of the bytes."""

    def entry(k):
        content = bytearray(p["size"])
        if p["size"] and p["unlike"] and k % p["unlike"] == 0:
            content[-1] = k % 256
        return bytes(content)

    if p["form"] == 2:
        count = max(1, min(p["entries"], room - 20))
        return atom(b"sgpd", struct.pack(">I4sI", 0, p["kind"], count) + bytes(min(room - 20, int(count * p["share"]))))
    before = 4 if p["form"] == 0 else 0
    size = p["size"] if before else max(1, p["size"])
    count = min(p["entries"], (room - 24) // (before + size))
    content = b"".join((struct.pack(">I", size) if before else b"") + entry(k).ljust(size, b"\0") for k in range(count))
    return atom(b"sgpd", struct.pack(">I4sII", 0x01000000, p["kind"], 0 if before else size, count) + content)


def fresh():
    pick, number = chance.choice, chance.randint
    length = pick([number(16, 2048), number(2048, 8000), 2048])
    return dict(
        kind=pick([b"abcd", b"abcd", b"roll", b"rash", b"alst", b"tele"]),
        code=pick([0, 1, 1, 2, 2]),
        length=length,
        turns=pick([1, 2, 3, 5, 15, 16, 17, 18, 19, 20, 24, 32]),
        spread=pick([0, 0, 1, 2]),
        far=pick([15, 220, 224, 240, 255, number(1, 4000)]),
        seed=number(0, 99),
        run=pick([1, 1, 1, 2, 3, 5]),
        count=pick([0, 0, 2048, 2 * length, 3 * length]),
        patterns=pick([1, 1, 1, number(2, length)]),
        entries=pick([number(1, 4000), 3571, 3721, 16, 18, 32]),
        size=pick([0, 0, 0, 1, 2, 4, 8, 30, 100, 600]),
        unlike=pick([0, 0, 1, 2, 3]),
        form=pick([0, 0, 0, 1, 2]),
        share=pick([1, 1.5, 1.999, 2.9]),
    )


def changed(p):
    p, other = dict(p), fresh()
    for key in chance.sample(sorted(p), chance.randint(1, 2)):
        if key in ("length", "entries", "far", "turns", "count", "size") and chance.random() < 0.7:
            p[key] = max(0 if key in ("count", "size") else 1, int(p[key] * chance.uniform(0.8, 1.25)) + chance.randint(-2, 2))
        else:
            p[key] = other[key]
    return p


def measured(tried):
    bodies = []
    for p in tried:
        front = table(p)
        if len(front) + 32 <= BODY:
            body = front + descriptions(p, BODY - len(front))
            assert len(body) <= BODY
            bodies.append((p, body))
    with open(FOLDER + "/bodies.bin", "wb") as out:
        for p, body in bodies:
            out.write(struct.pack("<II", len(body), int.from_bytes(p["kind"], "big")) + body)
    board = "qemu-system-arm -M mps2-an385 -icount shift=0 -nographic -monitor none -serial null -semihosting-config enable=on,target=native -kernel search.elf"
    run = subprocess.run(board.split(), cwd=FOLDER, stdout=subprocess.PIPE, stderr=subprocess.STDOUT, text=True, timeout=300)
    lines = [line.split() for line in run.stdout.splitlines()]
    assert len(lines) == len(bodies), "the board did not come to its end"
    return [(int(line[0]), int(line[1]), p) for line, (p, _) in zip(lines, bodies)]


best, tried, begun = measured([KNOWN]), 1, time.time()
while time.time() - begun < SECONDS:
    told = measured([fresh() for _ in range(30)] + [changed(chance.choice(best)[2]) for _ in range(30)])
    tried += len(told)
    apart = {}
    for one in sorted(best + told, key=lambda one: -one[0]):
        apart.setdefault(one[0] // 20000, one)
    best = list(apart.values())[:12]
print(f"search: {tried} bodies, seed {SEED}; the costliest, with their instructions and status:")
for cost, status, p in best[:5]:
    print(f"  {cost} {status} {p}")
