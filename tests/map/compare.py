"""The map's programs against Python written apart from them, and the drawing.

    python3 tests/map/compare.py [MAPS]

`chart` is run on histories, cut at many places, and its map is compared with the layout that judges/model/model.py has there. `inspect` is run
on those maps and on MAPS spoiled ones, and its answer is compared with `first_bad` of judges/model/maps.py, which goes by one regular expression and by
sums of lengths. The drawing's own reading (tools/heapmap) has to agree with both, and of every third map table, bar and picture are checked.
The largest request that a map's sheet says is served is compared with the model's heap, for every size on random heaps.
"""

import collections
import copy
import importlib.machinery
import importlib.util
import random
import subprocess
import sys
import xml.etree.ElementTree as xml
from pathlib import Path

ROOT = Path(__file__).resolve().parents[2]
sys.path.insert(0, str(ROOT / "judges" / "model"))
import histories  # noqa: E402
import model  # noqa: E402
from maps import LINE, NO_MAP, PLACES, first_bad, lines_of, map_of  # noqa: E402

SEED = 20240201


def load(path):
    """A program of this repository as a module."""
    loader = importlib.machinery.SourceFileLoader(Path(path).name, str(ROOT / path))
    module = importlib.util.module_from_spec(importlib.util.spec_from_loader(loader.name, loader))
    loader.exec_module(module)
    return module


heapmap = load("tools/heapmap")


def fail(what, *shown):
    """Stop at a difference."""
    sys.exit("tests/map: %s%s" % (what, "".join("\n  %r" % (part[:200] if hasattr(part, "__getitem__") else part,) for part in shown)))


def ask(program, data):
    """What a program writes for an input."""
    run = subprocess.run([ROOT / "crates" / program / "out" / program], input=data, capture_output=True, timeout=60)
    if run.returncode != 0:
        fail("%s ended with status %d on" % (program, run.returncode), data)
    return run.stdout


def wanted_of(data):
    """The answer line to a map."""
    bad = first_bad(data)
    return b"07%08X00000000\n" % bad if bad else b"00%08X00000000\n" % data.count(b"\n")


# what is compared


def compare_inspect(data):
    """`inspect`, the reader here and the drawing's say the same of some bytes."""
    said, wanted = ask("inspect", data), wanted_of(data)
    if said != wanted:
        fail("inspect answers otherwise than the reader", data, said, wanted)
    chunks, fault = heapmap.read(data)
    if (fault.line if fault else 0) != first_bad(data):
        fail("tools/heapmap reads otherwise", data, fault, wanted)
    return chunks if fault is None else None


def compare_history(frames, rng, cuts):
    """`chart` on a history, cut at some places: its maps are the model's. Gives them."""
    lines = lines_of(frames)
    places = set(rng.sample(range(len(lines) + 1), min(cuts, len(lines)))) | {len(lines)}
    trace, maps = model.Trace(PLACES), []
    for place in range(len(lines) + 1):
        if place in places:
            wanted, said = map_of(trace.heap), ask("chart", b"".join(lines[:place]))
            if said != wanted:
                fail("chart and the model differ after %d lines" % place, said, wanted)
            maps.append(wanted)
        if place < len(lines):
            trace.line(lines[place][:-1] if lines[place].endswith(b"\n") else b"")
    return maps


# what is served


def check_served(heap, data):
    """The largest request that the map's sheet says is served is that of the model's heap, and every smaller one is served too. Gives what serves it."""
    sizes = range(1, 4 * heap.record.words + 16)
    emptied = model.Heap(list(heap.memory), PLACES, copy.deepcopy(heap.record))
    emptied.empty_cache(0)
    chunks = heapmap.read(data)[0]
    if [chunk.length for chunk in emptied.chunks() if not chunk.used] != list(map(heapmap.bytes_of, heapmap.runs(chunks))):
        fail("the runs of touching free or cached chunks are the free ones of the emptied heap", data)
    searched = lambda s: heap.search(s)[0] is not None or emptied.search(s)[0] is not None
    serves = {s: not heap.never_fits(s) and (heap.oldest_serving(s) is not None or searched(s)) for s in {model.rounded(size) for size in sizes}}
    wanted = [size for size in sizes if serves[model.rounded(size)]]
    most = heapmap.served(chunks)
    if wanted != list(range(1, most + 1)):
        fail("the largest request that is served, and every smaller one", most, max(wanted, default=0), data)
    return heapmap.largest_request(chunks).partition(" (")[2]


def served_history(seed):
    """A heap after a random history of few and often large chunks: the largest free chunk is of any class, the cached one often longer."""
    rng = random.Random(seed)
    heap = model.Heap([0] * 601, PLACES)
    heap.make(rng.choice((5, 7, 9, 17, 33, 65, 127, 129, 257, 401, 601)))
    for _ in range(rng.randrange(40)):
        places = [chunk.payload for chunk in heap.chunks() if chunk.used]
        if places and rng.random() < 0.4:
            heap.take_back(rng.choice(places))
        else:
            heap.hand_out(rng.choice((rng.randrange(1, 60), rng.randrange(1, 4 * heap.record.words), rng.randrange(500, 560))))
    return heap


HEAPS = 1_000  # random heaps of which every request is asked


def check_requests():
    """What is served: on random heaps by the model, for every size; on heaps just made by the proved program. Gives how many serve most by each way."""
    ways = collections.Counter()
    for seed in range(HEAPS):
        heap = served_history(SEED + seed)
        ways[check_served(heap, map_of(heap))] += 1
    if set(ways) != {"", "a cached chunk)", "with the cache emptied)"} or min(ways.values()) < 20:
        fail("what serves the largest request is not of each kind, so that is not tested", ways)
    for words, most in ((127, 244), (129, 508), (9, 20), (7, 0), (33, 116)):
        whole = b"10%08X%08X\n" % (0, 4 * words - 4)
        said = ask("trace", b"00%08X\n01%08X\n" % (words, most + 1)) + (ask("trace", b"00%08X\n01%08X\n" % (words, most)) if most else b"")
        numbers = [line[:2] for line in said.splitlines()]
        if heapmap.served(heapmap.read(whole)[0]) != most or numbers != [b"00", b"08", b"00", b"00"][: len(numbers)]:
            fail("the largest request on a heap of %d words just made" % words, most, said)
    return ways


def check_words():
    """How the sheet says it, in its last two lines: the longest run, and what serves the largest request; and where nothing is served."""
    for data, run, words in (
        (b"1000000000000001F8\n", "504 bytes at 0 (1 chunk)", "244 bytes"),
        (b"100000000000000018\n", "24 bytes at 0 (1 chunk)", "none"),
        (b"110000000000000018\n", "none", "none"),
        (b"120000000000000018\n", "24 bytes at 0 (1 chunk)", "none"),
        (b"120000000000000020\n", "32 bytes at 0 (1 chunk)", "20 bytes (a cached chunk)"),
        (b"120000000000000018\n110000001800000018\n", "24 bytes at 0 (1 chunk)", "20 bytes (a cached chunk)"),
        (b"120000000000000010\n100000001000000010\n", "32 bytes at 0 (2 chunks)", "20 bytes (with the cache emptied)"),
        (b"120000000000000210\n", "528 bytes at 0 (1 chunk)", "524 bytes (a cached chunk)"),
        (b"120000000000000100\n110000010000000010\n100000011000000100\n", "256 bytes at 0 (1 chunk)", "252 bytes (a cached chunk)"),
        (b"1000000000000001F8\n12000001F800000300\n", "1,272 bytes at 0 (2 chunks)", "1,268 bytes (with the cache emptied)"),
        (b"100000000000000300\n110000030000000010\n120000031000000200\n", "768 bytes at 0 (1 chunk)", "764 bytes"),
        (b"120000000000000010\n120000001000000010\n120000002000000010\n", "48 bytes at 0 (3 chunks)", "20 bytes (with the cache emptied)"),
    ):
        said = heapmap.table(heapmap.read(data)[0])[-2:]
        wanted = ["longest run of touching free or cached chunks: " + run, "largest request that is served: " + words]
        if said != wanted:
            fail("the sheet's last lines", *said, *wanted)


# spoiled maps


def spoiled(data, rng):
    """A map with one or two things changed."""
    for _ in range(rng.choice((1, 1, 1, 2))):
        data = rng.choice((flipped, digit, dropped, doubled, swapped, cut, fed, longer, another_kind, another_length))(data, rng)
    return data


def flipped(data, rng):
    """A bit is another."""
    place = rng.randrange(len(data)) if data else 0
    return data[:place] + bytes([data[place] ^ 1 << rng.randrange(8)]) + data[place + 1 :] if data else data


def digit(data, rng):
    """A byte is another digit, or looks like one."""
    place = rng.randrange(len(data)) if data else 0
    return data[:place] + bytes([rng.choice(b"0123456789ABCDEFafgG:@/ -\r\n\0\xff")]) + data[place + 1 :]


def of_lines(change):
    """A change of the list of lines."""
    return lambda data, rng: b"".join(change(lines_of(data) or [b""], rng))


def without(lines, k):
    """The lines but one."""
    return lines[:k] + lines[k + 1 :]


dropped = of_lines(lambda lines, rng: without(lines, rng.randrange(len(lines))))
doubled = of_lines(lambda lines, rng: (lambda k: lines[: k + 1] + lines[k:])(rng.randrange(len(lines))))
swapped = of_lines(lambda lines, rng: (lambda k: without(lines, k) + [lines[k]])(rng.randrange(len(lines))))


def cut(data, rng):
    """Ends earlier: without its last line feed, or somewhere."""
    return data[:-1] if rng.random() < 0.4 else data[: rng.randrange(len(data) + 1)]


def fed(data, rng):
    """Line feeds as others write them."""
    return rng.choice((data.replace(b"\n", b"\r\n"), data.replace(b"\n", b"\r"), data + b"\n", b"\n" + data, data.replace(b"\n", b"\n\n", 1)))


def longer(data, rng):
    """Something behind it."""
    end = sum(int(line[10:18], 16) for line in data.splitlines() if LINE.fullmatch(line + b"\n"))
    row = b"%02X%08X%08X\n" % (rng.choice((0x10, 0x11, 0x12)), end, rng.choice((8, 16, 20, 24, 4096, 262_112 - end if end < 262_112 else 16, 2**32 - 8)))
    return data + rng.choice((row, b"0", b" ", row[:-1], b"\0" * 19))


def another_kind(data, rng):
    """A line's kind is another."""
    place = 19 * rng.randrange(len(data) // 19 + 1)
    return data[:place] + rng.choice((b"10", b"11", b"12", b"13", b"0F", b"00")) + data[place + 2 :]


def another_length(data, rng):
    """A line's length is another, and the offsets behind it follow; legal lengths among them."""
    lines = [line for line in data.splitlines() if LINE.fullmatch(line + b"\n")]
    if not lines:
        return data
    chosen, at, out = rng.randrange(len(lines)), 0, []
    for k, line in enumerate(lines):
        length = rng.choice((0, 8, 12, 16, 20, 24, 40, 262_104, 262_112, 2**31)) if k == chosen else int(line[10:18], 16)
        out.append(b"%s%08X%08X\n" % (line[:2], at % 2**32, length))
        at += length
    return b"".join(out)


def extremes():
    """The longest map, and bytes that are far from one."""
    most = b"".join(b"11%08X00000010\n" % (16 * k) for k in range(16_382))
    one = b"100000000000000010\n"
    return (
        [b"", b"\n", b"\0", b"0" * 18, one, one[:-1], one + b"\n", one * 2, b"\r\n", one.lower(), one.replace(b"\n", b"\r\n"), NO_MAP]
        + [most, most[:-1], most + b"\n", most + b"0", most + b"110003FFE000000010\n", most * 2, most + b"0" * 400_000]
        + [b"0" * 1_000_000, b"0" * 1_000_000 + b"\n", b"0" * 400_000, b"\0" * 400_000, b"\n" * 400_000, one + b"1" * 1_000_000 + b"\n"]
        + [b"10000000000003FFE0\n", b"10000000000003FFE8\n", b"120000000000000010\n120000001000000010\n", b"10FFFFFFF0FFFFFFF8\n"]
    )


# histories


def traces(rng):
    """Frames of histories: the trace list, and random ones of the oracle's."""
    yield (ROOT / "crates/trace/stdin").read_bytes(), 60
    yield b"", 1
    for seed in range(24):
        yield histories.random_history(SEED + seed, PLACES)[0], 12


def most_chunks():
    """`chart` on the history with most chunks, least ones as long as one is found: its map, reckoned here."""
    said = ask("chart", b"0000003FFF\n" + b"0100000001\n" * 4_200)
    wanted = b"".join(b"11%08X00000010\n" % (16 * k) for k in range(4_094)) + b"100000FFE000000018\n"
    if said != wanted:
        fail("chart on 4,095 chunks", said, wanted)
    return wanted


# the drawing


def check_drawing(data, chunks):
    """Table, bar and picture of a map: every chunk is there, the sums are right, and nothing is outside."""
    whole = heapmap.bytes_of(chunks)
    table, bar = heapmap.table(chunks), heapmap.bar(chunks)
    for line, chunk in zip(table[1:], chunks):
        if line.split() != [f"{chunk.at:,}", f"{chunk.at + 4:,}", f"{chunk.length:,}", chunk.kind]:
            fail("a line of the table is wrong", line, chunk)
    sums = {line.split()[0]: line.split()[1:3] for line in table[len(chunks) + 3 : len(chunks) + 7]}
    for kind, digits in (("free", b"10"), ("live", b"11"), ("cached", b"12"), ("all", b"1")):
        lengths = [int(line[10:], 16) for line in data.splitlines() if line.startswith(digits)]
        if sums[kind] != [f"{len(lengths):,}", f"{sum(lengths):,}"]:
            fail("a sum is wrong: %s" % kind, sums, lengths)
    live, cached = (sum(int(line[10:], 16) for line in data.splitlines() if line.startswith(kind)) for kind in (b"11", b"12"))
    for words in (f"in use (live): {live:,} bytes", f"committed (live and cached): {live + cached:,} bytes"):
        if words not in table[len(chunks) + 7 :]:
            fail("the totals do not say '%s'" % words, *table[len(chunks) + 7 :])
    if len(bar[0]) != heapmap.WIDTH or max(map(len, bar[1:3])) > heapmap.WIDTH or not bar[2].endswith(f"{whole:,}"):
        fail("the bar is not as wide as it is to be", *bar)
    if len(chunks) <= heapmap.WIDTH:
        runs = [sign for sign, before in zip(bar[0], " " + bar[0]) if sign != before]
        kinds = [heapmap.SIGNS[c.kind] for c, before in zip(chunks, [None, *chunks]) if before is None or before.kind != c.kind]
        if runs != kinds or bar[1].count("^") != len(chunks):
            fail("a chunk has no column of its own", *bar[:2])
    else:
        check_crowded(chunks, whole, bar)
    check_picture(chunks, whole)


def check_crowded(chunks, whole, bar):
    """More chunks than columns: a sign stands for what every byte of its column is, and the legend names all signs."""
    kinds = [chunk.kind for chunk in chunks for _ in range(chunk.length // 8)]
    pure = {("live",): "#", ("free",): "."}
    for column, sign in enumerate(bar[0]):
        held = kinds[whole * column // (8 * heapmap.WIDTH) : -(-whole * (column + 1) // (8 * heapmap.WIDTH))]
        more = held.count("live") - held.count("free")  # the first and the last eight bytes may be another column's in part
        mixed = "+" if more > 2 else ":" if more < -2 else "+:"
        if sign not in ("o" if "cached" in held else pure.get(tuple(set(held)), mixed)):
            fail("column %d of a crowded bar is %s" % (column, sign), held, bar[0])
    for words in (". free", "# live", "o cached (any of a column)", "+ mixed and mostly live", ": mixed and mostly free"):
        if words not in bar[4]:
            fail("the legend does not say '%s'" % words, bar[4])


def check_holes():
    """A heap a third of which is holes, in more chunks than columns, is no bar of live signs; two thirds are told from one."""
    for free, sign in ((16, "+"), (64, ":")):
        row = b"10%08X%08X\n11%08X00000020\n"
        data = b"".join(row % ((free + 32) * k, free, (free + 32) * k + free) for k in range(300))
        if heapmap.bar(heapmap.read(data)[0])[0] != sign * heapmap.WIDTH:
            fail("the bar of a heap of holes", heapmap.bar(heapmap.read(data)[0])[0])


def check_picture(chunks, whole):
    """The picture is well-formed, says the figures, has a title for each chunk, and the boxes of the chunks have the area of the heap."""
    tree = xml.fromstring(heapmap.picture(chunks))
    groups = tree.findall("{*}g")
    size = heapmap.a_row(whole)
    used = {kind: sum(chunk.length for chunk in chunks if chunk.kind == kind) for kind in ("live", "cached")}
    for words in ("in use: %s bytes" % f"{used['live']:,}", "committed: %s bytes" % f"{used['live'] + used['cached']:,}"):
        if words not in [element.text for element in tree.findall("{*}text")]:
            fail("the picture does not say '%s'" % words)
    if len(groups) != len(chunks) + 1:
        fail("the picture has %d groups for %d chunks" % (len(groups), len(chunks)))
    drawn = 0
    for group, chunk in zip(groups, chunks):
        words = "%s chunk: header at %s, payload at %s, %s bytes" % (chunk.kind, *(f"{n:,}" for n in (chunk.at, chunk.at + 4, chunk.length)))
        if group.find("{*}title").text != words:
            fail("a title is wrong", group.find("{*}title").text, words)
        drawn += sum(float(box.get("width")) for box in group.findall("{*}rect") if box.get("class") == "part")
    if abs(drawn * size / heapmap.PLOT - whole) > 0.01 * len(groups) * size / heapmap.PLOT + 1:
        fail("the picture shows %.1f bytes of %d" % (drawn * size / heapmap.PLOT, whole))


def check_whys():
    """Why a line is bad, in words."""
    one = b"100000000000000010\n"
    for data, line, why in (
        (b"", 1, "malformed: there is no line"),
        (one + b"10000000100000001\n", 2, "malformed: it has 17 digits"),
        (one.replace(b"\n", b"\r\n"), 1, "malformed: it ends in a carriage return"),
        (one[:-1], 1, "malformed: the line feed at its end is missing"),
        (b"10000000000000001a\n", 1, "malformed: only the digits"),
        (b"130000000000000010\n", 1, "malformed: its kind is 13"),
        (b"100000000800000010\n", 1, "wrong offset: its header is at 8, and the first chunk begins at 0"),
        (one + b"110000002000000010\n", 2, "wrong offset: its header is at 32, and the chunk before it ends at 16"),
        (b"110000000000000008\n", 1, "length not legal: 8 bytes"),
        (b"110000000000000014\n", 1, "length not legal: 20 bytes"),
        (b"11000000000003FFE8\n", 1, "too long: it ends at 262,120"),
        (one + b"100000001000000010\n", 2, "free after free"),
        (b"".join(b"12%08X00000010\n" % (16 * k) for k in range(5)), 5, "fifth cached: at most four"),
    ):
        fault = heapmap.read(data)[1]
        if fault is None or fault.line != line or not fault.why.startswith(why):
            fail("why a line is bad: %s" % why, data, fault)


def check_documents():
    """The picture in docs/ and the lines and bar in docs/MAP.md are what is written today."""
    chunks, _ = heapmap.read((ROOT / "crates/chart/stdout").read_bytes())
    if (ROOT / "docs/heap-map.svg").read_text() != heapmap.picture(chunks):
        fail("docs/heap-map.svg is old: tools/heapmap crates/chart/stdout --svg docs/heap-map.svg")
    said = ask("chart", b"0000000021\n" + b"010000000C\n" * 3 + b"0200000004\n0200000024\n").decode()
    shown = said.splitlines() + [""] + heapmap.bar(heapmap.read(said.encode())[0])
    if "".join("    %s\n" % line if line else "\n" for line in shown) not in (ROOT / "docs/MAP.md").read_text():
        fail("docs/MAP.md's example of a map is old; it is now", *shown)


def main(arguments):
    """Compare everything."""
    count = int(arguments[0]) if arguments else 2500
    rng = random.Random(SEED)
    check_whys()
    check_words()
    check_holes()
    check_documents()
    ways = check_requests()
    maps = [data for frames, cuts in traces(rng) for data in compare_history(frames, rng, cuts)]
    good = sorted({most_chunks(), *maps} - {NO_MAP})
    for k, data in enumerate(good):
        chunks = compare_inspect(data)
        if chunks is None:
            fail("the map of a heap is refused", data)
        if k % 3 == 0:
            check_drawing(data, chunks)
    for data in extremes():
        chunks = compare_inspect(data)
        if chunks is not None:
            check_drawing(data, chunks)
    accepted = 0
    small = [data for data in good if len(data) < 19 * 60]
    for _ in range(count):
        accepted += compare_inspect(spoiled(rng.choice(small), rng)) is not None
    print(
        "map: %d maps of chart equal the model's, %d different ones read; %d spoiled ones and %d extremes answered as the reader does, %d accepted;"
        " the largest request that is served is the model's on %d heaps, by a cached chunk on %d, with the cache emptied on %d"
        % (len(maps), len(good), count, len(extremes()), accepted, HEAPS, ways["a cached chunk)"], ways["with the cache emptied)"])
    )


if __name__ == "__main__":
    main(sys.argv[1:])
