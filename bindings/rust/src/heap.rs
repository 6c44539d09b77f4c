//! The heap: a record and lent words, and the calls on them.
//!
//! `hand_out` and `take_back` speak of offsets, as the rules do; `alloc` and `free` are the same calls
//! in pointers. The words are held by address and not by reference: each payload pointer comes from
//! that address, and no later call makes a reference over the words that would cut it off.

use core::marker::PhantomData;
use core::ptr::NonNull;

use crate::door;
use crate::record::{Record, Reply};
use crate::refusal::Refusal;

/// A payload's place: bytes from the start of the heap's words.
#[derive(Clone, Copy, Debug, PartialEq, Eq, PartialOrd, Ord, Hash)]
pub struct Offset(pub u32);

/// An offset where no payload starts, for a pointer that is outside: a header stands at byte 0.
const NOWHERE: Offset = Offset(0);

/// The bytes of a map's line.
pub const MAP_LINE: usize = 19;

/// The bytes of room that suffices for the map of any heap of that many words.
pub const fn map_room(words: usize) -> usize {
    words.saturating_sub(1) / 4 * MAP_LINE
}

/// How many chunks that were taken back a heap caches, for the next handouts that they fit.
///
/// A record does not say of which kind it is: to a heap of kind `One` a record with two cached chunks is
/// damaged.
#[derive(Clone, Copy, Debug, Default, PartialEq, Eq, Hash)]
pub enum Kind {
    /// One, as Hopter's heap does.
    One,
    /// Up to four, which is what [`Heap::make`] takes: a burst of four frees is kept, and handed out again
    /// oldest first.
    #[default]
    Four,
}

impl Kind {
    /// How many cache places a heap of this kind has.
    pub const fn places(self) -> usize {
        match self {
            Kind::One => 1,
            Kind::Four => 4,
        }
    }
}

/// A heap over words that are lent to it for `'a`.
///
/// No call locks anything: see the [crate's text](crate).
#[derive(Debug)]
pub struct Heap<'a> {
    /// What the heap keeps between calls.
    record: Record,
    /// How many chunks are cached at most.
    kind: Kind,
    /// The address of the first word.
    start: NonNull<u32>,
    /// How many words are lent.
    len: usize,
    /// How many free chunks the last call compared.
    compared: u32,
    /// The words are borrowed, and nobody else has them.
    words: PhantomData<&'a mut [u32]>,
}

// SAFETY: a heap is plain numbers and words that it alone has borrowed, as a `&mut [u32]` is.
unsafe impl Send for Heap<'_> {}

impl<'a> Heap<'a> {
    /// Make a heap of all these words, with four cache places. `BadLength` unless there is an odd count of
    /// words, 5 to 65,529.
    pub fn make(words: &'a mut [u32]) -> Result<Heap<'a>, Refusal> {
        Heap::make_as(Kind::Four, words)
    }

    /// As [`make`](Heap::make), with as many cache places as the kind says.
    ///
    /// ```
    /// use lischemur::{Heap, Kind, Memory, Offset, Refusal};
    ///
    /// for (kind, third) in [(Kind::Four, Offset(4)), (Kind::One, Offset(20))] {
    ///     let mut memory = Memory::<13>::new();
    ///     let mut heap = Heap::make_as(kind, memory.words())?;
    ///     let (first, second) = (heap.hand_out(12)?, heap.hand_out(12)?);
    ///     heap.take_back(first)?;
    ///     heap.take_back(second)?; // with one place this releases the first
    ///     assert_eq!(heap.hand_out(12)?, third);
    /// }
    /// # Ok::<(), Refusal>(())
    /// ```
    pub fn make_as(kind: Kind, words: &'a mut [u32]) -> Result<Heap<'a>, Refusal> {
        let mut heap = Heap::over_as(kind, Record::EMPTY, words);
        heap.make_again()?;
        Ok(heap)
    }

    /// A heap that is there already, as [`into_parts`](Heap::into_parts) gave it or as memory kept it, with
    /// four cache places.
    ///
    /// Nothing is trusted: on a record and words that are not a sound heap every call is refused.
    pub fn over(record: Record, words: &'a mut [u32]) -> Heap<'a> {
        Heap::over_as(Kind::Four, record, words)
    }

    /// As [`over`](Heap::over), with as many cache places as the kind says. A record does not say of which
    /// kind it was; one with more cached chunks than there are places is no sound heap.
    pub fn over_as(kind: Kind, record: Record, words: &'a mut [u32]) -> Heap<'a> {
        Heap {
            record,
            kind,
            len: words.len(),
            start: NonNull::from(words).cast(),
            compared: 0,
            words: PhantomData,
        }
    }

    /// The record and the words, for [`over`](Heap::over).
    pub fn into_parts(self) -> (Record, &'a mut [u32]) {
        // SAFETY: start and length are those of the `&'a mut [u32]` that `over` took, and `self`, which
        // stood for it, is gone.
        let words = unsafe { core::slice::from_raw_parts_mut(self.start.as_ptr(), self.len) };
        (self.record, words)
    }

    /// Begin anew in the same words: nothing is live any more, and all counters are 0. If it is
    /// refused the heap in use goes on.
    pub fn make_again(&mut self) -> Result<(), Refusal> {
        // A length beyond 32 bits is refused like any other that is too long.
        let words = u32::try_from(self.len).unwrap_or(u32::MAX);
        // SAFETY: the record is borrowed here, start and length are those of words borrowed for `'a`,
        // and the archive's function accepts any contents of both.
        let reply = unsafe {
            door::lischemur_make(&mut self.record, self.start.as_ptr(), self.count(), words)
        };
        self.answered(reply).map(|_| ())
    }

    /// Hand out a payload of at least `size` bytes, all of it 0 up to its chunk's end. `ZeroSize`,
    /// `TooLarge`, `Damaged`, `NeverFits` and `NoFit` are tested in this order. Before it refuses with `NoFit` it empties
    /// the cache and searches once more; refused after all, the cache and every word are as they were.
    pub fn hand_out(&mut self, size: u32) -> Result<Offset, Refusal> {
        let call = match self.kind {
            Kind::One => door::lischemur_one_hand_out,
            Kind::Four => door::lischemur_hand_out,
        };
        // SAFETY: as in `make_again`; any size is accepted.
        let reply = unsafe { call(&mut self.record, self.start.as_ptr(), self.count(), size) };
        self.answered(reply).map(Offset)
    }

    /// Take back a payload. `Damaged` and `NotLive` are tested in this order; any offset may be given.
    pub fn take_back(&mut self, payload: Offset) -> Result<(), Refusal> {
        let call = match self.kind {
            Kind::One => door::lischemur_one_take_back,
            Kind::Four => door::lischemur_take_back,
        };
        // SAFETY: as in `make_again`; any offset is accepted.
        let reply = unsafe {
            call(
                &mut self.record,
                self.start.as_ptr(),
                self.count(),
                payload.0,
            )
        };
        self.answered(reply).map(|_| ())
    }

    /// As [`hand_out`](Heap::hand_out), but gives a pointer. It is 8-aligned if [`aligned`](Heap::aligned)
    /// says so, and good for `size` bytes until the payload is freed or `'a` ends.
    pub fn alloc(&mut self, size: usize) -> Result<NonNull<u8>, Refusal> {
        // A size beyond 32 bits is refused like any other that is too large.
        let payload = self.hand_out(u32::try_from(size).unwrap_or(u32::MAX))?;
        // An offset that was handed out lies inside, so the refusal here never comes.
        self.pointer(payload).ok_or(Refusal::Damaged)
    }

    /// As [`take_back`](Heap::take_back), but takes a pointer. Any pointer may be given; one that
    /// leads outside is `NotLive`.
    ///
    /// The bytes are not read and not changed through it. Whoever still has the pointer may not use
    /// it: the payload can be handed out again.
    pub fn free(&mut self, payload: NonNull<u8>) -> Result<(), Refusal> {
        self.take_back(self.offset(payload).unwrap_or(NOWHERE))
    }

    /// The pointer to a byte of the words, or nothing if the offset lies past their end.
    pub fn pointer(&self, offset: Offset) -> Option<NonNull<u8>> {
        let at = usize::try_from(offset.0).ok()?;
        if at >= self.bytes() {
            return None;
        }
        // SAFETY: the byte is one of the lent words', so the sum stays inside them.
        Some(unsafe { self.start.cast::<u8>().add(at) })
    }

    /// The offset of a byte that a pointer points to, or nothing if it is not one of the lent words'.
    pub fn offset(&self, pointer: NonNull<u8>) -> Option<Offset> {
        let at = (pointer.as_ptr() as usize).wrapping_sub(self.start.as_ptr() as usize);
        if at >= self.bytes() {
            return None;
        }
        u32::try_from(at).ok().map(Offset)
    }

    /// Whether the words start at an address that is 4 mod 8, so that payloads are 8-aligned.
    pub fn aligned(&self) -> bool {
        self.start.as_ptr() as usize % 8 == 4
    }

    /// Whether record and words are sound. While they are not, every other call but zero and too
    /// large sizes, making again and the readers is `Damaged`.
    pub fn audit(&self) -> bool {
        let call = match self.kind {
            Kind::One => door::lischemur_one_audit,
            Kind::Four => door::lischemur_audit,
        };
        // SAFETY: start and length are those of words borrowed for `'a`, which are only read.
        let sound = unsafe { call(self.record, self.start.as_ptr(), self.count()) };
        sound == 1
    }

    /// Write the heap's map at the start of the room, and give what was written: a line of [`MAP_LINE`]
    /// bytes for each chunk, left to right. `Damaged` and `NoRoom` are tested in this order; the rest of
    /// the room, and after a refusal all of it, keeps its bytes.
    ///
    /// A line has two digits of kind (10 free, 11 live, 12 cached), eight of the header's offset and eight
    /// of the chunk's length, hexadecimal in upper case, and a line feed.
    ///
    /// ```
    /// use lischemur::{map_room, Heap, Memory, Refusal};
    ///
    /// let mut memory = Memory::<33>::new();
    /// let mut heap = Heap::make(memory.words())?;
    /// heap.hand_out(12)?;
    /// let mut room = [0; map_room(33)];
    /// assert_eq!(heap.write_map(&mut room)?, b"110000000000000010\n100000001000000070\n");
    /// assert_eq!(heap.write_map(&mut room[..37]), Err(Refusal::NoRoom));
    /// # Ok::<(), Refusal>(())
    /// ```
    pub fn write_map<'r>(&self, room: &'r mut [u8]) -> Result<&'r [u8], Refusal> {
        let call = match self.kind {
            Kind::One => door::lischemur_one_write_map,
            Kind::Four => door::lischemur_write_map,
        };
        // SAFETY: as in `audit`; the room is borrowed here, and the archive's function accepts any.
        let reply = unsafe {
            call(
                self.record,
                self.start.as_ptr(),
                self.count(),
                room.as_mut_ptr(),
                room.len() as u64,
            )
        };
        match Refusal::of_number(reply.number) {
            Ok(()) => Ok(&room[..MAP_LINE * reply.value as usize]),
            Err(Refusal::BadLength) => Err(Refusal::NoRoom),
            Err(refusal) => Err(refusal),
        }
    }

    /// If high water has risen since the mark was last read: high water less 108 bytes per stacklet,
    /// which may be negative.
    pub fn mark(&mut self, stacklets: u32) -> Option<i64> {
        // SAFETY: the function takes numbers only, and accepts any.
        let marking = unsafe { door::lischemur_mark(self.record, stacklets) };
        self.record = marking.rec;
        (marking.changed == 1).then_some(marking.mark)
    }

    /// Bytes in use, what tasks hold: the sum of live lengths, headers included. It follows each handout and
    /// each free, and is the figure to show.
    pub fn in_use(&self) -> u32 {
        // SAFETY: the function takes numbers only, and accepts any.
        unsafe { door::lischemur_in_use(self.record) }
    }

    /// Bytes committed: what tasks hold and the cached chunks, each of which the next handout that it fits
    /// gets.
    pub fn committed(&self) -> u32 {
        // SAFETY: the function takes numbers only, and accepts any.
        unsafe { door::lischemur_committed(self.record) }
    }

    /// The most bytes that were committed.
    pub fn peak(&self) -> u32 {
        // SAFETY: the function takes numbers only, and accepts any.
        unsafe { door::lischemur_peak(self.record) }
    }

    /// High water: the largest end, in bytes, of a chunk that was handed out.
    pub fn high_water(&self) -> u32 {
        // SAFETY: the function takes numbers only, and accepts any.
        unsafe { door::lischemur_high_water(self.record) }
    }

    /// How many free chunks the last making, handout or taking back compared; in both searches where there were two.
    pub fn compared(&self) -> u32 {
        self.compared
    }

    /// How many chunks are cached at most.
    pub fn kind(&self) -> Kind {
        self.kind
    }

    /// What the heap keeps between calls.
    pub fn record(&self) -> &Record {
        &self.record
    }

    /// How many words are lent, as the archive takes it: in 64 bits on every processor.
    fn count(&self) -> u64 {
        self.len as u64
    }

    /// The lent words in bytes.
    fn bytes(&self) -> usize {
        // A slice has at most `isize::MAX` bytes, so this does not wrap.
        4 * self.len
    }

    /// A reply as a result, its count kept.
    fn answered(&mut self, reply: Reply) -> Result<u32, Refusal> {
        self.compared = reply.compared;
        Refusal::of_number(reply.number)?;
        Ok(reply.value)
    }
}
