"""The model: the rules of the meter heap as a Python program, to judge other programs by.

Written from the rules (document 01, as later requests amended it) and in their order, not from the Rust. It finds chunks by
walking the tiling, not by footers and left bits, and keeps no knowledge beside the record and the
words, except which words hold links (for dumps only). docs/ORACLE.md says what it is compared with.

As a program it is the trace program of the rules, with the harness's options:

    python3 judges/model/model.py [--places 1|4] [--dump] [--words N] [--fill SEED] [--marks STACKLETS] < frames

A heap has one cache place, as document 01 and the Rust have it, or four, as W-205 does: four if it is not said.

Offsets are bytes from the heap's start, `w` is a word index, a link is 0 to 5 for a sentinel and
w + 6 for the header at word w.
"""

import copy
import sys
from dataclasses import dataclass, field
from itertools import groupby
from typing import NamedTuple

LEAST_WORDS, MOST_WORDS = 5, 65_529
LARGEST_SIZE = 4_294_967_284
LEAST_CHUNK = 16
LEAST_REMAINDER = 12
CACHE_SLACK = 512
BYTES_A_STACKLET = 108
TRACE_WORDS = 16_383

DONE, ZERO_SIZE, TOO_LARGE, NO_FIT, NOT_LIVE, DAMAGED, BAD_LENGTH, NO_FRAME, NEVER_FITS = range(9)


class Answer(NamedTuple):
    """An answer number, its value, and how many free chunks were compared."""

    number: int
    value: int = 0
    compared: int = 0

    def line(self):
        """The answer as a line of a trace, without its line feed."""
        return "%02X%08X%08X" % self


@dataclass
class Record:
    """What the heap remembers beside its words. Record() is the empty record."""

    prev: list = field(default_factory=lambda: [0] * 6)  # the sentinels' prev links
    next: list = field(default_factory=lambda: [0] * 6)  # the sentinels' next links
    words: int = 0  # the heap's word count
    in_use: int = 0  # the sum of live lengths: what tasks hold
    committed: int = 0  # the sum of used lengths: that and the cached chunks
    peak: int = 0  # the most that was committed
    high: int = 0  # the largest end of a chunk taken from a list
    cached: list = field(default_factory=list)  # the links in the cache places, oldest first, without the unused ones at the end
    fresh: int = 0  # whether high water was just updated: 1 if it was, else 0


class Chunk(NamedTuple):
    """A chunk of the tiling: its header's word index, its length in bytes, and whether it is used."""

    w: int
    length: int
    used: bool

    @property
    def right(self):
        """The word index behind the chunk."""
        return self.w + self.length // 4

    @property
    def footer(self):
        """The chunk's last word."""
        return self.right - 1

    @property
    def payload(self):
        """The offset of the chunk's payload."""
        return 4 * self.w + 4

    @property
    def link(self):
        """The link that names the chunk."""
        return link_of(self.w)


# Words, tags and links


def link_of(w):
    """The link that names the header at word w."""
    return w + 6


def word_of(link):
    """The word index of the header that a link above 5 names."""
    return link - 6


def name_of(link):
    """What a link names: s and a class for a sentinel, @ and an offset for a header."""
    return f"s{link}" if link < 6 else f"@{4 * word_of(link)}"


def cached_of(links):
    """The cached chunks by the links in a record's places: without the unused places at the end, which hold 0."""
    used = [at + 1 for at, link in enumerate(links) if link != 0]
    return list(links[: max(used, default=0)])


def in_places(cached, places):
    """The links in a record's places for some cached chunks: the chunks' links, and 0 in the places that are left."""
    return cached + [0] * (places - len(cached))


def accepted(words):
    """Whether a heap may have so many words."""
    return LEAST_WORDS <= words <= MOST_WORDS and words % 2 == 1


# Rounding, classes, threshold


def rounded(size):
    """The chunk length that serves a size."""
    return (max(size + 4, LEAST_CHUNK) + 7) // 8 * 8


def class_of(length):
    """The class of a chunk length."""
    for number, end in enumerate((32, 64, 128, 256, 512)):
        if length < end:
            return number
    return 5


def start_class(s):
    """The class at which the search for s begins."""
    return min(class_of(s) + 1, 5)


def threshold(s):
    """The least length of a listed chunk that serves s."""
    if s >= 512:
        return s
    power = 1
    while power <= s:
        power *= 2
    return power


class Heap:
    """A record with the memory of which it describes the first part, the lent words."""

    def __init__(self, memory, places, record=None):
        """A heap of any words and record, to be judged; or, without a record, memory with no heap made. It has that many cache places."""
        self.memory = memory
        self.places = places
        self.record = Record() if record is None else record
        self.lent = 0 if record is None else len(memory)
        self.link_words = set()

    # fields

    def chunk(self, w):
        """The chunk whose header is at word w, as the header says."""
        header = self.memory[w]
        return Chunk(w, header // 4 * 4, header // 2 % 2 == 1)

    def chunks(self):
        """The chunks of a sound heap from left to right."""
        w = 0
        while w < self.record.words - 1:
            chunk = self.chunk(w)
            yield chunk
            w = chunk.right

    def prev(self, link):
        """The prev link of what a link names."""
        return self.record.prev[link] if link < 6 else self.memory[word_of(link) + 1] % 65536

    def next(self, link):
        """The next link of what a link names."""
        return self.record.next[link] if link < 6 else self.memory[word_of(link) + 1] // 65536

    def write(self, w, value):
        """Write a word that is no link word."""
        self.memory[w] = value
        self.link_words.discard(w)

    def set_prev(self, link, prev):
        """Write the prev link of what a link names."""
        if link < 6:
            self.record.prev[link] = prev
        else:
            self.set_links(link, prev, self.next(link))

    def set_next(self, link, next):
        """Write the next link of what a link names."""
        if link < 6:
            self.record.next[link] = next
        else:
            self.set_links(link, self.prev(link), next)

    def set_links(self, link, prev, next):
        """Write the link word of a chunk."""
        w = word_of(link) + 1
        self.memory[w] = prev + 65536 * next
        self.link_words.add(w)

    # steps

    def unlink(self, chunk):
        """Take a free chunk out of its list. Its own link word stays."""
        prev, next = self.prev(chunk.link), self.next(chunk.link)
        self.set_next(prev, next)
        self.set_prev(next, prev)

    def list_at_head(self, chunk):
        """Put a free chunk at the head of its class list."""
        sentinel = class_of(chunk.length)
        first = self.next(sentinel)
        self.set_next(sentinel, chunk.link)
        self.set_prev(first, chunk.link)
        self.set_links(chunk.link, sentinel, first)

    def mark_free(self, chunk):
        """Write header and footer of a free chunk; its left neighbour is used."""
        self.write(chunk.w, chunk.length + 1)
        self.write(chunk.footer, chunk.length)

    def mark_used(self, chunk):
        """Write the header of a used chunk whose left neighbour is used, and its right neighbour's left bit."""
        self.write(chunk.w, chunk.length + 2 + 1)
        right = self.memory[chunk.right]
        self.write(chunk.right, right if right % 2 == 1 else right + 1)

    # making

    def make(self, words):
        """Make a heap of the memory's first words. A 6 changes nothing."""
        if not accepted(words) or words > len(self.memory):
            return Answer(BAD_LENGTH)
        self.lent = words
        self.record = Record(prev=list(range(6)), next=list(range(6)), words=words)
        whole = Chunk(0, 4 * words - 4, False)
        self.mark_free(whole)
        self.list_at_head(whole)
        self.write(words - 1, 2)
        return Answer(DONE)

    # handing out

    def hand_out(self, size):
        """Hand out a chunk with a payload of at least so many bytes."""
        if size == 0:
            return Answer(ZERO_SIZE)
        if size > LARGEST_SIZE:
            return Answer(TOO_LARGE)
        if not self.sound():
            return Answer(DAMAGED)
        s = rounded(size)
        if self.never_fits(s):
            return Answer(NEVER_FITS)
        cached = self.oldest_serving(s)
        if cached is not None:
            self.record.cached.remove(cached.link)
            self.record.in_use += cached.length
            self.clear(cached)
            return Answer(DONE, cached.payload)
        chunk, compared = self.search(s)
        return self.search_merged(s, compared) if chunk is None else self.take(chunk, s, compared)

    def search_merged(self, s, compared):
        """With nothing found after so many comparisons: empty the cache and search the lists once more. Nothing again: no fit, and all is as it was."""
        before = self.kept()
        self.empty_cache(s)
        chunk, more = self.search(s)
        if chunk is None:
            self.put_back(before)
            return Answer(NO_FIT, 0, compared + more)
        return self.take(chunk, s, compared + more)

    def empty_cache(self, s):
        """Release every cached chunk, oldest first, whatever s asks for."""
        while self.record.cached:
            self.release(self.chunk(word_of(self.record.cached.pop(0))))

    def kept(self):
        """Record and words, to be put back."""
        return copy.deepcopy(self.record), self.memory[: self.lent], set(self.link_words)

    def put_back(self, before):
        """Record and words as they were."""
        self.record, self.memory[: self.lent], self.link_words = before

    def take(self, chunk, s, compared):
        """Take a listed chunk for s, found after so many comparisons, and hand it out."""
        self.unlink(chunk)
        chunk = self.split(chunk, s)
        self.mark_used(chunk)
        self.count(chunk)
        self.clear(chunk)
        return Answer(DONE, chunk.payload, compared)

    def never_fits(self, s):
        """Whether the threshold for s exceeds heap bytes - 4, so that no heap of this length can ever serve it from its lists."""
        return threshold(s) > 4 * self.record.words - 4

    def oldest_serving(self, s):
        """The oldest cached chunk that serves s, or none."""
        cached = [self.chunk(word_of(link)) for link in self.record.cached]
        return next((chunk for chunk in cached if self.serves(chunk, s)), None)

    def serves(self, chunk, s):
        """Whether a cached chunk has a length of at least s and at most s + 512."""
        return s <= chunk.length <= s + CACHE_SLACK

    def search(self, s):
        """The first listed chunk of length at least s, or none, and how many were compared."""
        compared = 0
        for sentinel in range(self.start_class(s), 6):
            link = self.next(sentinel)
            while link != sentinel:
                chunk = self.chunk(word_of(link))
                compared += 1
                if chunk.length >= s:
                    return chunk, compared
                link = self.next(link)
        return None, compared

    def start_class(self, s):
        """The class at which the search for s begins."""
        return start_class(s)

    def split(self, chunk, s):
        """Cut s bytes off a free chunk and list what remains, if that is enough for a chunk."""
        if chunk.length - s < LEAST_REMAINDER:
            return chunk
        remainder = Chunk(chunk.w + s // 4, chunk.length - s, False)
        self.mark_free(remainder)
        self.list_at_head(remainder)
        return Chunk(chunk.w, s, False)

    def count(self, chunk):
        """Let the counters follow a chunk taken from a list."""
        r = self.record
        end = 4 * chunk.right
        if end > r.high:
            r.high, r.fresh = end, 1
        r.in_use += chunk.length
        r.committed += chunk.length
        r.peak = max(r.peak, r.committed)

    def clear(self, chunk):
        """Set the payload of a chunk that is handed out to 0, up to the chunk's end."""
        for w in range(chunk.w + 1, chunk.right):
            self.write(w, 0)

    # taking back

    def take_back(self, offset):
        """Take back the live chunk whose payload starts at an offset."""
        if not self.sound():
            return Answer(DAMAGED)
        chunk = self.live(offset)
        if chunk is None:
            return Answer(NOT_LIVE)
        self.record.in_use -= chunk.length
        if len(self.record.cached) == self.places:
            self.release(self.chunk(word_of(self.record.cached.pop(0))))
        self.record.cached.append(chunk.link)
        return Answer(DONE)

    def live(self, offset):
        """The live chunk whose payload starts at an offset, or none. Only the tiling tells."""
        for chunk in self.chunks():
            if chunk.payload == offset and chunk.used and chunk.link not in self.record.cached:
                return chunk
        return None

    def release(self, chunk):
        """Merge a used chunk with its free neighbours and list it."""
        self.record.committed -= chunk.length
        left, right = self.free_neighbours(chunk)
        self.unlink_neighbours(left, right)
        parts = [part for part in (left, chunk, right) if part]
        merged = Chunk(parts[0].w, sum(part.length for part in parts), False)
        self.mark_free(merged)
        after = self.memory[merged.right]
        self.write(merged.right, after - after % 2)
        self.list_at_head(merged)

    def free_neighbours(self, chunk):
        """The left and the right neighbour of a chunk, where they are free."""
        left = right = None
        for other in self.chunks():
            if not other.used and other.right == chunk.w:
                left = other
            if not other.used and other.w == chunk.right:
                right = other
        return left, right

    def unlink_neighbours(self, left, right):
        """Unlink what is to be merged, the left one first."""
        for neighbour in (left, right):
            if neighbour:
                self.unlink(neighbour)

    # the mark

    def mark(self, stacklets):
        """None for "unchanged", else high water less what the stacklets take; and the flag clears."""
        if self.record.fresh == 0:
            return None
        self.record.fresh = 0
        return self.record.high - BYTES_A_STACKLET * stacklets

    # soundness

    def sound(self):
        """The audit: whether record and words are a sound pair, whatever they hold."""
        if self.lent != self.record.words or not accepted(self.record.words):
            return False
        tiling = self.tiling()
        return tiling is not None and self.lists_right(tiling) and self.figures_right(tiling)

    def tiling(self):
        """The chunks from left to right if they tile the words up to the guard with right tags, else none."""
        guard = self.record.words - 1
        tiling = []
        w, left_used = 0, True
        while w < guard:
            chunk = self.chunk(w)
            if chunk.length % 8 != 0 or chunk.length < LEAST_CHUNK or chunk.right > guard:
                return None
            if self.memory[w] % 2 != left_used:
                return None
            if not chunk.used and (not left_used or self.memory[chunk.footer] != chunk.length):
                return None
            tiling.append(chunk)
            w, left_used = chunk.right, chunk.used
        return tiling if self.memory[guard] == 2 + left_used else None

    def lists_right(self, tiling):
        """Whether each class list holds exactly the free chunks of that class, each once, prev mirroring next."""
        class_by_link = {chunk.link: class_of(chunk.length) for chunk in tiling if not chunk.used}
        listed = set()
        for sentinel in range(6):
            before, link = sentinel, self.record.next[sentinel]
            while link != sentinel:
                if class_by_link.get(link) != sentinel or link in listed or self.prev(link) != before:
                    return False
                listed.add(link)
                before, link = link, self.next(link)
            if self.record.prev[sentinel] != before:
                return False
        return len(listed) == len(class_by_link)

    def figures_right(self, tiling):
        """Whether the cached chunks are used ones, all different and no more than there are places, and the counters what they count."""
        r = self.record
        used = [chunk for chunk in tiling if chunk.used]
        return (
            all(link in [chunk.link for chunk in used] for link in r.cached)
            and len(set(r.cached)) == len(r.cached) <= self.places
            and r.in_use == sum(chunk.length for chunk in used if chunk.link not in r.cached)
            and r.committed == sum(chunk.length for chunk in used)
            and r.committed <= r.peak <= r.high <= 4 * r.words - 4
            and r.high % 8 == 0
            and r.fresh <= 1
            and all(4 * chunk.right <= r.high for chunk in used)
        )

    # showing

    def dump(self):
        """The whole state on one line, links by what they name (docs/ORACLE.md)."""
        r = self.record
        return "words=%d in_use=%d committed=%d peak=%d high=%d fresh=%d cached=%s heads=%s lists=%s memory=%s" % (
            r.words,
            r.in_use,
            r.committed,
            r.peak,
            r.high,
            r.fresh,
            ">".join(name_of(link) for link in r.cached) or "-",
            ",".join(f"{name_of(r.prev[k])}/{name_of(r.next[k])}" for k in range(6)),
            ",".join(self.dump_list(k) for k in range(6)),
            self.dump_memory(),
        )

    def dump_list(self, sentinel):
        """The chunks of a list in order; - for none, ? if the list does not come back to its sentinel."""
        chunks = []
        link = self.record.next[sentinel]
        while link >= 6:
            if len(chunks) > self.record.words // 4:
                return "?"
            chunks.append(name_of(link))
            link = self.next(link)
        return "?" if link != sentinel else ">".join(chunks) or "-"

    def dump_memory(self):
        """Every lent word, equal neighbours once with their count."""
        shown = self.memory[: self.lent]
        for w in self.link_words:
            if w < self.lent:
                shown[w] = f"{name_of(shown[w] % 65536)}/{name_of(shown[w] // 65536)}"
        runs = [(word, len(list(run))) for word, run in groupby(shown)]
        return ",".join([f"{word}*{count}" if count > 1 else str(word) for word, count in runs]) or "-"


# Trace frames


def frame_of(line):
    """The kind and number of a line without its line feed, or none if it is no frame."""
    if len(line) != 10 or any(digit not in b"0123456789ABCDEF" for digit in line):
        return None
    kind, number = int(line[:2], 16), int(line[2:], 16)
    return (kind, number) if kind <= 2 else None


class Trace:
    """The trace program, with the harness's options."""

    def __init__(self, places, words=TRACE_WORDS, fill=None, marks=None, dump=False, heap=Heap):
        """A trace program before its first line."""
        self.heap = heap([0] * words, places)
        self.seed = fill
        self.marks = marks
        self.dump = dump
        self.unwritten = range(words)  # what a loader or a task has yet to write: all words, or the payload handed out last
        self.fill()

    def fill(self):
        """With a seed, let the loader or the last task write: numbers below 256."""
        if self.seed is None:
            return
        for w in self.unwritten:
            self.seed = (self.seed * 1_664_525 + 1_013_904_223) % 2**32
            self.heap.write(w, self.seed >> 24)
        self.unwritten = ()

    def request(self, kind, number):
        """Serve one request and give the lines to be written for it."""
        heap = self.heap
        self.fill()
        answer = (heap.make, heap.hand_out, heap.take_back)[kind](number)
        lines = [answer.line()]
        if kind == 1 and answer.number == DONE:
            self.unwritten = range(answer.value // 4, heap.chunk(answer.value // 4 - 1).right)
            if self.marks is not None:
                mark = heap.mark(self.marks)
                lines.append("mark=unchanged" if mark is None else f"mark={mark}")
        if self.dump:
            lines.append(heap.dump())
        return answer, lines

    def line(self, line):
        """The lines to be written for an input line that had its line feed taken off."""
        frame = frame_of(line)
        return self.no_frame() if frame is None else self.request(*frame)[1]

    def no_frame(self):
        """The lines to be written for what is no frame."""
        lines = [Answer(NO_FRAME).line()]
        return lines + [self.heap.dump()] if self.dump else lines

    def run(self, data):
        """The lines to be written for a whole input."""
        *whole, rest = data.split(b"\n")
        written = [out for line in whole for out in self.line(line)]
        return written + (self.no_frame() if rest else [])


def main(arguments):
    """Run the trace program on standard input."""
    options = {"places": 4}
    arguments = iter(arguments)
    for argument in arguments:
        if argument == "--dump":
            options["dump"] = True
        elif argument in ("--places", "--words", "--fill", "--marks"):
            options[argument[2:]] = int(next(arguments))
        else:
            usage()
    if options["places"] not in (1, 4):
        usage()
    for line in Trace(**options).run(sys.stdin.buffer.read()):
        print(line)


def usage():
    """Say how the model is started, and stop."""
    sys.exit("usage: model.py [--places 1|4] [--dump] [--words N] [--fill SEED] [--marks STACKLETS] < frames")


if __name__ == "__main__":
    main(sys.argv[1:])
