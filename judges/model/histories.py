"""Histories for judges/test: random ones, all short ones, and models with a slip to be told from the Rust.

A history is a run of trace frames with the lines that the model writes for them, dumps included.
"""

import random

import model


class Fault(Exception):
    """The model contradicts the rules."""


def readings(heap, size):
    """Whether the Rust serves a request and whether the rules do, by a plain reading of headers and cached chunks: a cached chunk serves; or, for the
    Rust, a free chunk reaches the threshold, and for the rules a run of touching chunks that are free or cached. By the rules none does if the
    threshold exceeds the heap's bytes less the guard's."""
    s = model.rounded(size)
    may = model.threshold(s) <= 4 * heap.record.words - 4
    chunks = list(heap.chunks())
    cached = [chunk for chunk in chunks if chunk.link in heap.record.cached]
    from_cache = any(s <= chunk.length <= s + 512 for chunk in cached)
    free = [chunk.length for chunk in chunks if not chunk.used]
    rust, rules = (from_cache or any(length >= model.threshold(s) for length in lengths) for lengths in (free, runs(heap)))
    return rust, rules and may


def runs(heap):
    """The lengths of the runs of touching chunks that are free or cached, from left to right: the free chunks once the cache is emptied."""
    loose = [0]
    for chunk in heap.chunks():
        if not chunk.used or chunk.link in heap.record.cached:
            loose[-1] += chunk.length
        else:
            loose.append(0)
    return [length for length in loose if length]


def in_domain(heap, kind, size):
    """Whether a request is one for bytes that the Rust can be asked."""
    return kind == 1 and 0 < size <= model.LARGEST_SIZE and heap.sound()


def parts(heap, kind, size):
    """Whether a request is one that the Rust refuses and the rules serve, or the other way round: before it a run against the Rust ends."""
    return in_domain(heap, kind, size) and len(set(readings(heap, size))) == 2


def random_history(seed, places, heap=model.Heap, rust=False):
    """A random history on a heap with that many cache places: its frames, options, and the lines that the model writes for it. If it is for the Rust, a
    request at which Rust and rules part is left out."""
    rng = random.Random(seed)
    least, most = rng.choice(((5, 42), (33, 130), (33, 130), (131, 400), (1501, 2500)))
    words = rng.randrange(least, most, 2)
    options = {"words": words}
    if words < 130 and rng.random() < 0.6:
        options["fill"] = rng.randrange(2**32)
    if rng.random() < 0.2:
        options["marks"] = rng.randrange(4)
    trace = model.Trace(places, dump=True, heap=heap, **options)
    frames, wanted, live, old = [], [], set(), [4]
    wish = rng.choice((0.4, 0.48, 0.55))
    for number in range(rng.randrange(60, 500)):
        draw = rng.random()
        if number == 0 or draw < 0.004:
            request = (0, words if number == 0 else rng.choice((words, rng.randrange(0, words + 3))))
        elif draw < 0.02:
            request = (2, rng.choice((rng.choice(old), rng.randrange(4 * words + 8), 2 ** 32 - 1)))
        elif draw < 0.02 + wish * 0.98 and live:
            request = (2, rng.choice(sorted(live)))
        else:
            request = (1, size_of(rng, words))
        if rust and parts(trace.heap, *request):
            continue
        fits = fit(trace.heap, *request)
        answer, lines = trace.request(*request)
        check_fit(fits, request, answer)
        frames.append(b"%02X%08X\n" % request)
        wanted += lines
        if request[0] == 0 and answer.number == 0:
            live = set()
        elif request[0] == 1 and answer.number == 0:
            live.add(answer.value)
            old.append(answer.value)
        elif request[0] == 2 and answer.number == 0:
            live.discard(request[1])
    arguments = [text for key, value in options.items() for text in (f"--{key}", str(value))]
    return b"".join(frames), ["--dump", *arguments], wanted


def size_of(rng, words):
    """A size to ask for: at the limits, anything, about the cache's slack, at a class's edge, or small."""
    draw = rng.random()
    if draw < 0.02:
        return rng.choice((0, model.LARGEST_SIZE, model.LARGEST_SIZE + 1, 2**32 - 1, rng.randrange(2**32)))
    if draw < 0.08:
        return rng.randrange(1, 4 * words + 8)
    if draw < 0.6 and words > 1000:
        return rng.randrange(480, 1100)
    if draw < 0.4:
        edges = [edge for edge in (16, 32, 64, 128, 256, 512) if edge <= 2 * words]
        return max(1, rng.choice(edges or [16]) + rng.randrange(-20, 12))
    return rng.randrange(1, 70)


def fit(heap, kind, size):
    """Before a handout, in the model: whether the rules serve it, and what it is refused with: 8 if it can never fit, else 3 and how many chunks are compared,
    from 512 on the class 5 list and that of the emptied heap. Nothing for other requests, and for models with a slip."""
    if not in_domain(heap, kind, size) or type(heap) is not model.Heap:
        return None
    s = model.rounded(size)
    free = [chunk.length for chunk in heap.chunks() if not chunk.used]
    found, count = heap.search(s)
    if (found is not None) != any(length >= model.threshold(s) for length in free):
        raise Fault("the search finds a chunk exactly when one reaches the threshold: s = %d, free %s" % (s, free))
    if found is not None and s < 512 and count != 1:
        raise Fault("a search for less than 512 that finds a chunk compares one: s = %d, free %s" % (s, free))
    if model.threshold(s) > 4 * heap.record.words - 4:
        return False, model.Answer(model.NEVER_FITS)
    return readings(heap, size)[1], model.Answer(model.NO_FIT, 0, sum(length >= 512 for length in free + runs(heap)) if s >= 512 else 0)


def check_fit(fits, request, answer):
    """After a handout, in the model: it was refused exactly where headers and cached chunks said so, with the number and count that they said."""
    if fits is None:
        return
    served, wanted = fits
    if (answer.number == model.DONE) != served or (not served and answer != wanted):
        raise Fault("%s is answered %s, and the headers say served: %s, else %s" % (request, answer, served, wanted))


def every_history(words, sizes, depth, places, heap=model.Heap, rust=False):
    """Every history of up to so many requests on a heap of so many words, asks of these sizes and all frees: frames and the lines that the model
    writes for them. If they are for the Rust, a history ends before a request at which Rust and rules part."""
    trace = model.Trace(places, words=words, dump=True, heap=heap)
    frames, wanted = [], []

    def play(history):
        """Play a history on a heap made anew and give the payloads live at its end."""
        live = set()
        for kind, number in [(0, words)] + history:
            answer, lines = trace.request(kind, number)
            frames.append(b"%02X%08X\n" % (kind, number))
            wanted.extend(lines)
            if kind == 1 and answer.number == 0:
                live.add(answer.value)
            live -= {number} if kind == 2 else set()
        return sorted(live)

    def extend(history):
        """Play a history and every longer one that begins with it."""
        live = play(history)
        if len(history) < depth:
            asks = [(1, size) for size in sizes if not rust or not parts(trace.heap, 1, size)]
            for request in asks + [(2, offset) for offset in live]:
                extend(history + [request])

    extend([])
    return b"".join(frames), wanted


# Slips: models that get one step wrong, each of which the histories must tell from the Rust


class SearchesItsOwnClass(model.Heap):
    def start_class(self, s):
        return model.class_of(s)


class FitsBestInClassFive(model.Heap):
    def search(self, s):
        chunk, count = super().search(s)
        fits = [c for c in self.chunks() if not c.used and c.length >= max(s, 512)]
        return (min(fits, key=lambda c: c.length), count) if chunk and chunk.length >= 512 and fits else (chunk, count)


class LeavesTheRemaindersLeftBitClear(model.Heap):
    def mark_used(self, chunk):
        self.write(chunk.w, chunk.length + 2 + 1)


class LowersCommittedWhenOnlyCaching(model.Heap):
    def take_back(self, offset):
        chunk, room = self.live(offset) if self.sound() else None, len(self.record.cached) < self.places
        answer = super().take_back(offset)
        self.record.committed -= chunk.length if chunk and room else 0
        return answer


class CountsTheCachedAsInUse(model.Heap):
    def take_back(self, offset):
        before, room = self.record.in_use, len(self.record.cached) < self.places
        answer = super().take_back(offset)
        self.record.in_use = before if room else self.record.in_use
        return answer


class HandsOutTheCachedUncounted(model.Heap):
    def hand_out(self, size):
        before, cached = self.record.in_use, len(self.record.cached)
        answer = super().hand_out(size)
        self.record.in_use = before if len(self.record.cached) < cached else self.record.in_use
        return answer


class LetsThePeakFollowInUse(model.Heap):
    def count(self, chunk):
        before = self.record.peak
        super().count(chunk)
        self.record.peak = max(before, self.record.in_use)


class FreesTheCachedAgain(model.Heap):
    def live(self, offset):
        return next((chunk for chunk in self.chunks() if chunk.payload == offset and chunk.used), None)


class JudgesByTheWordBefore(model.Heap):
    def live(self, offset):
        w = offset // 4 - 1
        chunk = self.chunk(w) if offset % 4 == 0 and 0 <= w < self.record.words - 1 else None
        return chunk if chunk and chunk.used and chunk.length >= 16 and chunk.link not in self.record.cached else None

    def release(self, chunk):
        if chunk in self.chunks():
            super().release(chunk)


class UnlinksTheRightNeighbourFirst(model.Heap):
    def unlink_neighbours(self, left, right):
        super().unlink_neighbours(right, left)


class ListsAtTheTail(model.Heap):
    def list_at_head(self, chunk):
        sentinel = model.class_of(chunk.length)
        last = self.prev(sentinel)
        self.set_prev(sentinel, chunk.link)
        self.set_next(last, chunk.link)
        self.set_links(chunk.link, last, sentinel)


class ServesFromTheCacheOnlyWhatFits(model.Heap):
    def serves(self, chunk, s):
        return super().serves(chunk, s) and chunk.length < s + 512


class SetsTheFlagAlways(model.Heap):
    def count(self, chunk):
        super().count(chunk)
        self.record.fresh = True


class LeavesPayloadsAsTheyAre(model.Heap):
    """The rules before payloads arrived empty: what the Rust does when its tasks clear nothing."""

    def clear(self, chunk):
        pass


class LeavesTheCachedPayloadAsItIs(model.Heap):
    def hand_out(self, size):
        self.from_cache = True
        return super().hand_out(size)

    def search(self, s):
        self.from_cache = False
        return super().search(s)

    def clear(self, chunk):
        if not self.from_cache:
            super().clear(chunk)


class ClearsNoSlack(model.Heap):
    def hand_out(self, size):
        self.size = size
        return super().hand_out(size)

    def clear(self, chunk):
        super().clear(model.Chunk(chunk.w, 4 + (self.size + 3) // 4 * 4, True))


class ClearsTheRemainderToo(model.Heap):
    def split(self, chunk, s):
        self.clear(chunk)
        return super().split(chunk, s)


class ClearsWhatIsReleased(model.Heap):
    def release(self, chunk):
        self.clear(chunk)
        super().release(chunk)


class EmptiesTheCacheOnlyUntilItFits(model.Heap):
    def empty_cache(self, s):
        while self.record.cached and self.search(s)[0] is None:
            self.release(self.chunk(model.word_of(self.record.cached.pop(0))))


class EmptiesTheOldestAlone(model.Heap):
    def empty_cache(self, s):
        rest = self.record.cached[1:]
        self.record.cached = self.record.cached[:1]
        super().empty_cache(s)
        self.record.cached = rest


class EmptiesTheNewestFirst(model.Heap):
    def empty_cache(self, s):
        self.record.cached.reverse()
        super().empty_cache(s)


class LeavesTheCacheEmptiedByARefusal(model.Heap):
    def put_back(self, before):
        pass


class LeavesTheWordsEmptiedByARefusal(model.Heap):
    def put_back(self, before):
        self.record = before[0]


class PutsBackTagsAlone(model.Heap):
    """Of the words that a refusal puts back, those inside cached payloads stay as the releases left them."""

    def put_back(self, before):
        left = list(self.memory)
        super().put_back(before)
        for link in self.record.cached:
            chunk = self.chunk(model.word_of(link))
            for w in range(chunk.w + 1, chunk.right):
                self.write(w, left[w])


class HandsOutTheMergedChunkWhole(model.Heap):
    def search_merged(self, s, compared):
        self.whole = True
        answer = super().search_merged(s, compared)
        self.whole = False
        return answer

    def split(self, chunk, s):
        return chunk if getattr(self, "whole", False) else super().split(chunk, s)


class CountsTheFirstSearchAlone(model.Heap):
    def search_merged(self, s, compared):
        answer = super().search_merged(s, 0)
        return answer._replace(compared=compared)


class CountsTheSecondSearchAlone(model.Heap):
    def search_merged(self, s, compared):
        return super().search_merged(s, 0)


class SearchesOnceWithAnEmptyCache(model.Heap):
    def search_merged(self, s, compared):
        return super().search_merged(s, compared) if self.record.cached else model.Answer(model.NO_FIT, 0, compared)


class LetsThePeakCountWhatWasEmptied(model.Heap):
    def search_merged(self, s, compared):
        before = self.record.committed
        answer = super().search_merged(s, compared)
        if answer.number == model.DONE:
            self.record.peak = max(self.record.peak, before + self.chunk(answer.value // 4 - 1).length)
        return answer


class CountsTheEmptiedAsHeld(model.Heap):
    def empty_cache(self, s):
        for link in self.record.cached:
            self.record.in_use += self.chunk(model.word_of(link)).length
        super().empty_cache(s)


class SaysNoWithTheCacheFull(model.Heap):
    """The rules before the cache was emptied: what the Rust does."""

    def search_merged(self, s, compared):
        return model.Answer(model.NO_FIT, 0, compared)


class TellsNeverBySize(model.Heap):
    def never_fits(self, s):
        return s > 4 * self.record.words - 4


class TellsNeverAfterTheCache(model.Heap):
    def never_fits(self, s):
        return super().never_fits(s) and self.oldest_serving(s) is None


class TellsNeverOfAHeapThatIsFull(model.Heap):
    def never_fits(self, s):
        return super().never_fits(s) or self.record.committed + s > 4 * self.record.words - 4


class NeverSaysNever(model.Heap):
    """The rules before they told what can never fit."""

    def never_fits(self, s):
        return False


class TellsNeverOfWhatJustFits(model.Heap):
    def never_fits(self, s):
        return model.threshold(s) >= 4 * self.record.words - 4


class HandsOutTheNewestThatServes(model.Heap):
    def oldest_serving(self, s):
        self.record.cached.reverse()
        chunk = super().oldest_serving(s)
        self.record.cached.reverse()
        return chunk


class FillsTheGapWithTheNewest(model.Heap):
    def hand_out(self, size):
        before = list(self.record.cached)
        answer = super().hand_out(size)
        if len(self.record.cached) < len(before):
            gap = next(at for at, link in enumerate(before) if link not in self.record.cached)
            self.record.cached = before[:gap] + before[gap + 1 :][-1:] + before[gap + 1 : -1]
        return answer


class ReleasesTheNewest(model.Heap):
    def take_back(self, offset):
        if len(self.record.cached) == self.places and self.sound() and self.live(offset):
            self.record.cached.insert(0, self.record.cached.pop())
            super().take_back(offset)
            return model.Answer(model.DONE)
        return super().take_back(offset)


class LooksAtTheOldestAlone(model.Heap):
    def oldest_serving(self, s):
        chunk = super().oldest_serving(s)
        return chunk if chunk and chunk.link == self.record.cached[0] else None


class CachesOneMore(model.Heap):
    def take_back(self, offset):
        self.places += 1
        answer = super().take_back(offset)
        self.places -= 1
        return answer


class KeepsThemByOffset(model.Heap):
    def take_back(self, offset):
        answer = super().take_back(offset)
        self.record.cached.sort()
        return answer


SLIPS = (
    SearchesItsOwnClass,
    FitsBestInClassFive,
    LeavesTheRemaindersLeftBitClear,
    LowersCommittedWhenOnlyCaching,
    CountsTheCachedAsInUse,
    HandsOutTheCachedUncounted,
    LetsThePeakFollowInUse,
    FreesTheCachedAgain,
    JudgesByTheWordBefore,
    UnlinksTheRightNeighbourFirst,
    ListsAtTheTail,
    ServesFromTheCacheOnlyWhatFits,
    SetsTheFlagAlways,
    LeavesPayloadsAsTheyAre,
    LeavesTheCachedPayloadAsItIs,
    ClearsNoSlack,
    ClearsTheRemainderToo,
    ClearsWhatIsReleased,
)

# Slips that show with several cache places alone, so that no run against the Rust can tell them
SLIPS_WITH_PLACES = (
    HandsOutTheNewestThatServes,
    FillsTheGapWithTheNewest,
    ReleasesTheNewest,
    LooksAtTheOldestAlone,
    CachesOneMore,
    KeepsThemByOffset,
)

# Slips that show only where the cache is emptied or a size can never fit, before which a run against the Rust ends, or in the number and count of a
# refusal, which the Rust does not say; and for each the smallest history that tells it, as judges/model/smallest finds it, on a heap with four cache places: by
# an answer where there is one, else by a word
SLIPS_IN_REFUSING = {
    SaysNoWithTheCacheFull: "make 135, ask 12, ask 532",
    SearchesOnceWithAnEmptyCache: "make 135, ask 12, ask 532",
    CountsTheFirstSearchAlone: "make 135, ask 12, ask 532",
    CountsTheSecondSearchAlone: "make 135, ask 12, ask 532",
    CountsTheEmptiedAsHeld: "make 9, ask 12, free 4, ask 20, ask 12",
    LetsThePeakCountWhatWasEmptied: "make 9, ask 12, free 4, ask 20, ask 12",
    LeavesTheCacheEmptiedByARefusal: "make 13, ask 12, ask 12, free 4, ask 20, ask 12",
    LeavesTheWordsEmptiedByARefusal: "make 13, ask 12, ask 12, free 4, ask 20, ask 12",
    PutsBackTagsAlone: "make 13, ask 12, ask 12, free 4, ask 20",
    HandsOutTheMergedChunkWhole: "make 17, ask 12, free 4, ask 28, ask 12",
    EmptiesTheOldestAlone: "make 13, ask 12, ask 12, free 4, free 20, ask 20",
    EmptiesTheCacheOnlyUntilItFits: "make 13, ask 12, ask 12, free 20, free 4, ask 20",
    EmptiesTheNewestFirst: "make 273, ask 508, ask 12, ask 508, free 4, free 532, ask 532",
    TellsNeverBySize: "make 5, ask 12",
    TellsNeverAfterTheCache: "make 9, ask 20, free 4, ask 28",
    TellsNeverOfAHeapThatIsFull: "make 9, ask 12, ask 20",
    TellsNeverOfWhatJustFits: "make 9, ask 12",
    NeverSaysNever: "make 5, ask 12",
}
