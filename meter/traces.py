"""The traces that the meter answers, and the calls that are counted, made on the host from the rules' model (judges/model/model.py).

    WHOLE      the whole run of the rules, with the lines that they give for it
    night      the requests of the tasks' night up to each of its maps, and the maps
    random     ten thousand lines: the first part on the largest heap of the trace program, the rest on heaps of many sizes, with
               wrong frees, sizes at the limits and lines that are no frames among them
    calls      the part on the largest heap again, as calls that any heap can serve: a slot in place of an offset
    damaged    histories on small heaps with damage to record and words between the requests, and the audit's answer and a sum over the whole
               state after each: those of tests/c/compare.py, in lines that the board reads
    crowd      a heap with so many used chunks, then with every other one free: how a call's time grows
    emptied    the same heap asked for more than it has, with an empty cache and with four cached chunks, and for what an emptied cache serves
    turns      every kind of call once, on heaps in three states; the model says whether each does what it is called
"""

import importlib.util
import os
import random
import sys

sys.dont_write_bytecode = True
ROOT = os.path.join(os.path.dirname(os.path.abspath(__file__)), "..")
sys.path.insert(0, os.path.join(ROOT, "judges", "model"))
import model  # noqa: E402
from maps import map_of  # noqa: E402

# the places of a record and its words that damage is done to, and what begins anew, by the numbers that the board reads
PLACES = ("memory", "prev", "next", "words", "in_use", "committed", "peak", "high", "cached", "fresh", "lent", "reset")
DAMAGED = 20  # damaged histories, of about 400 requests each

LINES = 10_000  # lines of the random trace
FIRST = 6_000  # of these, on the largest heap
CACHE_PLACES = 4  # of the calls that the image makes, and of the record
SEED = 20

MAKE, HAND_OUT, TAKE_BACK, AUDIT = range(4)  # the audit is no frame of a trace, only a call to be counted

WHOLE = (
    b"0000000021\n010000000D\n010000000C\n0200000004\n0100000014\n0200000004\n0200000004\n020000001C\n01FFFFFFFF\n"
    b"0100000000\n0100000058\n",
    """000000000000000000
000000000400000001
000000001C00000001
000000000000000000
000000000400000000
000000000000000000
040000000000000000
000000000000000000
020000000000000000
010000000000000000
000000000400000001
""".split(),
)


def night():
    """The night of firmware/meter.c: its frames up to each map that it prints, and the lines of that map, from the model."""
    trace, frames, maps = model.Trace(CACHE_PLACES), [], []

    def ask(kind, number):
        frames.append(b"%02X%08X\n" % (kind, number))
        return trace.request(kind, number)[0].value

    def paper():
        maps.append((b"".join(frames), map_of(trace.heap).decode().split()))

    ask(MAKE, model.TRACE_WORDS)
    alarm = ask(HAND_OUT, 12)
    for _ in range(3):
        ask(HAND_OUT, 2**32 - 1)
        packet = ask(HAND_OUT, 48)
        ask(TAKE_BACK, packet)
        ask(TAKE_BACK, packet)
    paper()
    ask(TAKE_BACK, alarm)
    paper()
    return maps


def size_of(rng):
    """A size as tasks ask for it: mostly small, at times a buffer, seldom a slip."""
    draw = rng.random()
    if draw < 0.01:
        return rng.choice((0, model.LARGEST_SIZE, model.LARGEST_SIZE + 1, 2**32 - 1, 70_000))
    if draw < 0.70:
        return rng.randrange(1, 65)
    if draw < 0.95:
        return rng.randrange(65, 513)
    return rng.randrange(513, 4097)


def no_frame(rng):
    """A line that is no frame."""
    return rng.choice((b"", b"01", b"0300000001", b"01000000zz", b"010000000c", b"01000000010", b" 100000001", b"0100000001\r"))


def random_trace():
    """The random trace: its frames, its requests (none for what is no frame) and the lines that the model gives for it."""
    rng = random.Random(SEED)
    trace = model.Trace(CACHE_PLACES)
    frames, requests, wanted, live, old = [], [], [], [], [4]
    for at in range(LINES):
        draw = rng.random()
        request = None
        if at == 1:
            request = (MAKE, model.TRACE_WORDS)
        elif at > FIRST and draw < 0.01:
            request = (MAKE, rng.choice((5, 7, 9, 33, 34, 131, 1_001, 4_095, 16_383, 16_384, 16_385, 65_529, 2**32 - 1)))
        elif draw < 0.02:
            line = no_frame(rng)
        elif draw < 0.06:
            request = (TAKE_BACK, rng.choice((rng.choice(old), rng.randrange(0, 65_540), 8 * rng.randrange(8_192) + 4)))
        elif draw < 0.06 + 0.94 * min(0.9, len(live) / 240) and live:
            request = (TAKE_BACK, live[rng.randrange(len(live))])
        else:
            request = (HAND_OUT, size_of(rng))
        requests.append(request)
        frames.append(b"%02X%08X\n" % request if request else line + b"\n")
        if request is None:
            wanted += trace.line(line)
            continue
        answer, lines = trace.request(*request)
        wanted += lines
        if answer.number != model.DONE:
            continue
        if request[0] == MAKE:
            live = []
        elif request[0] == HAND_OUT:
            live.append(answer.value)
            old.append(answer.value)
        else:
            live.remove(request[1])
    frames[-1] = frames[-1][:-1]
    requests[-1] = None
    wanted[-1] = model.Answer(model.NO_FRAME).line()
    return b"".join(frames), requests, wanted


def state_line(heap):
    """The line on a state, as firmware/trace.c writes it."""
    r, total = heap.record, 2166136261
    numbers = [n for pair in zip(r.prev, r.next) for n in pair]
    numbers += [r.words, r.in_use, r.committed, r.peak, r.high, *model.in_places(r.cached, CACHE_PLACES), r.fresh, heap.lent, *heap.memory]
    for number in numbers:
        total = (total ^ int(number)) * 16777619 % 2**32
    return "%02X%08X" % (model.DONE if heap.sound() else model.DAMAGED, total)


def damage_line(name, index, number):
    """A line that does damage on the board."""
    return b"!%02X%04X%08X\n" % (PLACES.index(name), index, number)


def damaged(histories=DAMAGED, rounds=200):
    """Damaged histories of that many rounds: their lines, the lines that the model gives for them, and how many requests met damage."""
    spec = importlib.util.spec_from_file_location("tests_c_compare", os.path.join(ROOT, "tests", "c", "compare.py"))
    compare = importlib.util.module_from_spec(spec)
    spec.loader.exec_module(compare)
    model.Heap.dump, kept = state_line, model.Heap.dump
    lines, wanted, refused = [], [], 0
    for seed in range(histories):
        data, options, answers, met = compare.damaged_history(seed, CACHE_PLACES, rounds)
        lines.append(damage_line("reset", 0, int(options[1])))
        for line in data.splitlines(keepends=True):
            if line.startswith(b"!"):
                name, index, number = line[1:].split()
                line = damage_line(name.decode(), int(index), int(number))
            lines.append(line)
        wanted += answers
        refused += met
    model.Heap.dump = kept
    return b"".join(lines), wanted, refused


def call(kind, slot, number):
    """A line of the file `calls`."""
    return b"%02X%04X%08X\n" % (kind, slot, number)


def calls(requests, wanted):
    """The requests of the first part that are answered 0, with slots in place of offsets."""
    lines, slot_of, free = [], {}, list(range(1_000, -1, -1))
    for request, line in zip(requests[:FIRST], wanted):
        if request is None or int(line[:2], 16) != model.DONE:
            continue
        kind, number = request
        if kind == MAKE:
            lines.append(call(MAKE, 0, number))
        elif kind == HAND_OUT:
            slot = slot_of[int(line[2:10], 16)] = free.pop()
            lines.append(call(HAND_OUT, slot, number))
        else:
            slot = slot_of.pop(number)
            free.append(slot)
            lines.append(call(TAKE_BACK, slot, 0))
    return b"".join(lines)


def crowd(chunks, every_other):
    """Fill a heap with so many small chunks, free every other one if asked; the last three calls audit, hand out 40, take them back."""
    lines = [call(MAKE, 0, model.TRACE_WORDS)]
    lines += [call(HAND_OUT, slot, 12) for slot in range(chunks)]
    if every_other:
        lines += [call(TAKE_BACK, slot, 0) for slot in range(0, chunks, 2)]
    lines += [call(AUDIT, 0, 0), call(HAND_OUT, chunks, 40), call(TAKE_BACK, chunks, 0)]
    return b"".join(lines)


def emptied(chunks):
    """Fill a heap with so many small chunks; a handout that is refused; then four of them cached, the last beside the rest; the last three calls audit, hand
    out as much again, which is refused, and hand out what the rest and the chunk beside it serve."""
    lines = [call(MAKE, 0, model.TRACE_WORDS)]
    lines += [call(HAND_OUT, slot, 12) for slot in range(chunks)]
    lines += [call(HAND_OUT, chunks, 65_500)]
    lines += [call(TAKE_BACK, slot, 0) for slot in (0, 2, 4, chunks - 1)]
    rest = 4 * model.TRACE_WORDS - 4 - 16 * chunks
    lines += [call(AUDIT, 0, 0), call(HAND_OUT, chunks, 65_500), call(HAND_OUT, chunks, rest + 16 - 4)]
    return b"".join(lines)


class Sound(model.Heap):
    """A heap that is known to be sound, and gets back only what is live."""

    def sound(self):
        """It is."""
        return True

    def live(self, offset):
        """The chunk of a payload."""
        return self.chunk(offset // 4 - 1)


def look_at(named):
    """The calls again on the model: each has to do what its name says."""
    heap, payloads = Sound([0] * model.TRACE_WORDS, CACHE_PLACES), {}

    def frees():
        return sum(not chunk.used for chunk in heap.chunks())

    for name, line in named:
        kind, slot, number = int(line[:2], 16), int(line[2:6], 16), int(line[6:], 16)
        if kind == AUDIT:
            continue
        committed, free = heap.record.committed, frees() if name else 0
        answer = (heap.make, heap.hand_out, heap.take_back)[kind](payloads.pop(slot) if kind == TAKE_BACK else number)
        payloads[slot] = answer.value
        fell = heap.record.committed < committed
        does = {"lists": answer.compared > 0, "cache": answer.compared == 0, "only cached": not fell, "older one merged": fell and frees() <= free} if name else {}
        if answer.number != model.DONE or name and not does[name.rsplit(", ", 1)[1]]:
            raise ValueError(f"{name or line}: {answer}")
    return named


def turns(state):
    """Calls on a heap in a state, each with what it is called in a table, or with nothing if it only leads there. The heap has four cache places, and
    they are full when the audit is called."""

    def take_back(slot):
        return call(TAKE_BACK, slot, 0)

    if state == "small":
        # of five chunks the first is free, beside the one that is the oldest in the cache once another has been handed out from there
        lead = [call(MAKE, 0, 33)] + [call(HAND_OUT, slot, 12) for slot in range(5)] + [take_back(slot) for slot in (0, 2, 1, 3, 4)]
        return look_at([(None, line) for line in lead] + [
            ("audit", call(AUDIT, 0, 0)),
            ("hand out 20 bytes, lists", call(HAND_OUT, 5, 20)),
            ("hand out 12 bytes, cache", call(HAND_OUT, 2, 12)),
            ("take back 20 bytes, only cached", take_back(5)),
            ("take back 12 bytes, older one merged", take_back(2)),
        ])
    # every other small chunk is free, and four of those between them are cached: each is merged when it is released
    small = 3_940 if state == "fragmented" else 10
    lead = [call(MAKE, 0, model.TRACE_WORDS)] + [call(HAND_OUT, slot, 12) for slot in range(small)]
    lead += [take_back(slot) for slot in (*range(0, small, 2), 1, 3, 5, 7)]
    lines = [(None, line) for line in lead] + [("audit", call(AUDIT, 0, 0))]
    for size in (20, 540):
        lines += [(f"hand out {size} bytes, lists", call(HAND_OUT, 4_000, size))]
        lines += [(f"take back {size} bytes, older one merged", take_back(4_000))]
    # the cached chunk of 544 bytes would serve 60, so it is handed out before
    lines += [(None, call(HAND_OUT, 4_001, 540)), (None, call(HAND_OUT, 4_000, 60)), (None, take_back(4_000))]
    lines += [("hand out 60 bytes, cache", call(HAND_OUT, 4_000, 60)), ("take back 60 bytes, only cached", take_back(4_000))]
    if state == "fresh":
        for place in ("lists", "cache"):
            lines += [(f"hand out 16 KiB, {place}", call(HAND_OUT, 4_000, 16_384)), (None, take_back(4_000))]
    return look_at(lines)
