"""Histories and damage, answered by tests/c/trace.c through the door and by judges/model/model.py, and compared line by line.

    python3 tests/c/compare.py TRACE [HISTORIES]

TRACE is the built trace program. After every request the answer, the record, each word and the map must be equal. Writes how
many lines were compared; the first difference is shown and ends the run with status 1. All is run with one cache place and with four.
"""

import random
import subprocess
import sys
from pathlib import Path

ROOT = Path(__file__).resolve().parents[2]
sys.path.insert(0, str(ROOT / "judges" / "model"))
import histories
import model
from maps import map_of

FIELDS = ("words", "in_use", "committed", "peak", "high", "fresh")
STORED = 4  # cache places of the record
KINDS = {1: ["--one"], 4: []}  # the calls by their cache places, and what tells the trace program to use them


def map_shown(heap):
    """The map as trace.c writes it."""
    return map_of(heap).decode().replace("\n", ",") if heap.sound() else "%d/0/0" % model.DAMAGED


def whole_state(heap):
    """The state as trace.c writes it: the door's links and words are the model's, so nothing needs naming."""
    r = heap.record
    return "words=%d in_use=%d committed=%d peak=%d high=%d fresh=%d cached=%s sound=%d lent=%d links=%s memory=%s map=%s" % (
        r.words,
        r.in_use,
        r.committed,
        r.peak,
        r.high,
        r.fresh,
        ",".join(map(str, model.in_places(r.cached, STORED))),
        heap.sound(),
        heap.lent,
        "".join("%d/%d," % pair for pair in zip(r.prev, r.next)),
        "".join("%x," % word for word in heap.memory),
        map_shown(heap),
    )


def compare(trace, what, data, arguments, wanted):
    """Run the trace program on an input, and stop at the first line that is not the wanted one."""
    run = subprocess.run([trace, *arguments], input=data, capture_output=True, timeout=60)
    got = run.stdout.decode().splitlines()
    if run.returncode != 0:
        sys.exit("%s: the trace program ended with status %d: %s" % (what, run.returncode, run.stderr.decode()))
    for number, (mine, theirs) in enumerate(zip(got, wanted)):
        if mine != theirs:
            sys.exit("%s: line %d differs\n  door:  %s\n  model: %s" % (what, number + 1, mine, theirs))
    if len(got) != len(wanted):
        sys.exit("%s: %d lines, and the model writes %d" % (what, len(got), len(wanted)))
    return len(got)


def no_frames(places):
    """Lines that are no frames among some that are: the input, and the lines that the model writes for it."""
    data = b"0100000001\n0000000021\n\n010000000\n01000000010\n010000000a\n0300000001\n 100000001\n0100\x00000C\n"
    data += b"X" * 200 + b"\n0100000020\n0000010000\n0100000001\n0100000001"
    return data, model.Trace(places, dump=True).run(data)


def largest(places):
    """A history on the most words that a heap may have, up to its last chunk: the input, and the model's lines."""
    most = model.MOST_WORDS
    asks = [(1, size) for size in (4 * most - 560, 100, 200, 100, 50, 20, 12, 12)]
    requests = [(0, most), *asks, (2, 4), (2, 4 * most - 552), (1, 100), (2, 4), (1, 4 * most - 600)]
    data = b"".join(b"%02X%08X\n" % request for request in requests)
    return data, model.Trace(places, words=most, dump=True).run(data)


def told_apart(trace, places, slip):
    """Whether some history tells a model with a slip from the door: if none does, comparing shows nothing."""
    for seed in range(20):
        data, arguments, wanted = histories.random_history(seed, places, heap=slip)
        if subprocess.run([trace, *KINDS[places], *arguments], input=data, capture_output=True).stdout.decode().splitlines() != wanted:
            return True
    return False


def emptying():
    """The smallest histories that tell slips in emptying the cache, with four cache places: the input, and the model's lines; and those of each slip."""
    cases = histories.SLIPS_IN_REFUSING.items()
    for slip, history in cases:
        requests = [request.split() for request in history.split(", ")]
        data = b"".join(b"%02X%08X\n" % (("make", "ask", "free").index(kind), int(number)) for kind, number in requests)
        yield data, *(model.Trace(4, words=400, dump=True, heap=heap).run(data) for heap in (model.Heap, slip))


def changed(rng, value, bits):
    """Another number in a value's place: a bit, a step, a small one, or any."""
    draw = rng.randrange(4)
    if draw == 0:
        other = value ^ 1 << rng.randrange(bits)
    elif draw == 1:
        other = value + rng.choice((-16, -8, -4, -1, 1, 4, 8, 16))
    else:
        other = rng.randrange(200) if draw == 2 else rng.randrange(2**bits)
    return other % 2**bits


def write(heap, name, index, value):
    """Write a word or a field of the model's heap, or lend another count of words; give what stood there."""
    if name == "memory":
        old, heap.memory[index] = heap.memory[index], value
    elif name in ("prev", "next"):
        links = getattr(heap.record, name)
        old, links[index] = links[index], value
    elif name == "cached":
        links = model.in_places(heap.record.cached, STORED)
        old, links[index] = links[index], value
        heap.record.cached = model.cached_of(links)
    else:
        place = heap if name == "lent" else heap.record
        old = getattr(place, name)
        setattr(place, name, value)
    return old


def any_damage(rng, heap):
    """A place of record or memory and another number for it: as trace.c has it, name, index and value."""
    draw = rng.random()
    if draw < 0.5:
        index = rng.randrange(heap.lent)
        return "memory", index, changed(rng, heap.memory[index], 32)
    if draw < 0.7:
        name, index = rng.choice(("prev", "next")), rng.randrange(6)
        return name, index, changed(rng, getattr(heap.record, name)[index], 16)
    if draw < 0.75:
        return "lent", 0, rng.randrange(len(heap.memory))
    if draw < 0.8:
        index = rng.randrange(STORED)
        return "cached", index, changed(rng, model.in_places(heap.record.cached, STORED)[index], 16)
    name = rng.choice(FIELDS)
    return name, 0, changed(rng, getattr(heap.record, name), 32)


def damaged_history(seed, places, rounds=200):
    """A short history on a small heap, then damage, each undone unless the pair was sound: input, options and wanted lines, and how many requests met damage."""
    rng = random.Random(seed)
    words = rng.randrange(9, 100, 2)
    trace = model.Trace(places, words=words, dump=True)
    data, wanted, live, refused = [b"00%08X\n" % words], list(trace.request(0, words)[1]), [4], 0
    for _ in range(rounds):
        damage = any_damage(rng, trace.heap) if rng.random() < 0.7 else None
        if damage:
            data.append(b"!%s %d %d\n" % (damage[0].encode(), *damage[1:]))
            old = write(trace.heap, *damage)
        sound = trace.heap.sound()
        for kind, number in ((1, rng.randrange(1, 80)), (2, rng.choice(live))):
            answer, lines = trace.request(kind, number)
            data.append(b"%02X%08X\n" % (kind, number))
            wanted += lines
            refused += answer.number == model.DAMAGED
            if answer.number == model.DONE:
                live = live + [answer.value] if kind == 1 else live
        if damage and not sound:
            data.append(b"!%s %d %d\n" % (damage[0].encode(), damage[1], old))
            write(trace.heap, damage[0], damage[1], old)
    return b"".join(data), ["--words", str(words)], wanted, refused


def compare_kind(trace, places, count):
    """Compare everything with that many cache places; how many lines were compared."""

    def against(what, data, arguments, wanted):
        return compare(trace, f"cache places {places}, {what}", data, KINDS[places] + arguments, wanted)

    data, wanted = no_frames(places)
    lines = against("no frames", data, [], wanted)
    data, wanted = largest(places)
    lines += against("the largest heap", data, ["--words", str(model.MOST_WORDS)], wanted)
    for words in (9, 13, 17):
        data, wanted = histories.every_history(words, (12, 20, 28), 4, places)
        lines += against("every history on %d words" % words, data, ["--words", str(words)], wanted)
    for seed in range(count):
        data, arguments, wanted = histories.random_history(seed, places)
        lines += against("history %d" % seed, data, arguments, wanted)
    refusals = 0
    for seed in range(count):
        data, arguments, wanted, refused = damaged_history(seed, places)
        lines += against("damaged history %d" % seed, data, arguments, wanted)
        refusals += refused
    if refusals < 50 * count:
        sys.exit("only %d requests met damage" % refusals)
    slips = histories.SLIPS if places == 1 else histories.SLIPS + histories.SLIPS_WITH_PLACES
    for slip in slips:
        if not told_apart(trace, places, slip):
            sys.exit("no history tells %s from the door with %d cache places" % (slip.__name__, places))
    if places == 4:
        for data, wanted, slip in emptying():
            lines += against("emptying the cache", data, ["--words", "400"], wanted)
            if wanted == slip:
                sys.exit("a history does not tell its slip: %r" % data)
    return lines + len(slips)


def main(trace, count):
    """Compare everything and write how many lines were."""
    model.Heap.dump = whole_state
    print(sum(compare_kind(trace, places, count) for places in KINDS))


if __name__ == "__main__":
    if len(sys.argv) < 2:
        sys.exit("usage: compare.py TRACE [HISTORIES]")
    main(sys.argv[1], int(sys.argv[2]) if len(sys.argv) > 2 else 60)
