// SPDX-License-Identifier: Apache-2.0
//! The C interface as it is, and one set of buffers for it.

use crate::caller::Caller;

/// How many numbers each work buffer has at least.
pub const GRAPH: usize = 4_352;
pub const PAIRS: usize = 1_536;
pub const WORK: usize = 1_024;
pub const FLOW: usize = 256;
pub const TERMS: usize = 3_074;
pub const RUNS: usize = 1_024;

/// How many numbers each work buffer of a card has at least; where a card is read, its frames are as many
/// as the text has bytes.
pub const CARD_FRAMES: usize = 65_536;
pub const CARD_MARKS: usize = 32_768;
pub const CARD_TERMS: usize = 66_562;
pub const CARD_RUNS: usize = 65_536;

/// What a call may need of its thread's stack: a query too large for the lent buffers runs in arrays
/// there, and listing, card and lines are written by recursion.
pub const STACK: usize = 6 << 20;

/// 0 with the length of what was written, or a refusal's number; with 10 the lowest-numbered class
/// holding a literal that also stands in another class.
#[repr(C)]
#[derive(Clone, Copy, Debug, PartialEq, Eq)]
pub struct Returned {
    pub number: u32,
    pub bytes: usize,
    pub class: usize,
}

#[repr(C)]
#[derive(Clone, Copy, Debug, PartialEq, Eq)]
pub struct Lengths {
    pub graph: usize,
    pub pairs: usize,
    pub work: usize,
    pub flow: usize,
    pub terms: usize,
    pub runs: usize,
}

#[repr(C)]
#[derive(Clone, Copy, Debug, PartialEq, Eq)]
pub struct CardLengths {
    pub marks: usize,
    pub terms: usize,
    pub runs: usize,
}

/// 0, or 1 with a full list and 2 with a count past 64 bits; and how many terms the list holds.
#[repr(C)]
#[derive(Clone, Copy, Debug, PartialEq, Eq)]
pub struct AddedChild {
    pub number: u32,
    pub terms: usize,
}

/// 0 where every count is at most 4,294,967,295; or 1, and the first entry, from 0, whose count is above.
#[repr(C)]
#[derive(Clone, Copy, Debug, PartialEq, Eq)]
pub struct NarrowedList {
    pub number: u32,
    pub entry: usize,
}

unsafe extern "C" {
    /// The lengths above, as the library has them.
    pub safe fn tariff_lengths() -> Lengths;

    /// The account desk's call. Each pointer is valid for as many elements as the length after it
    /// says, no two overlap, and the thread has [`STACK`] bytes of stack left.
    pub fn tariff_merge(
        image: *const u8,
        image_bytes: usize,
        left: u16,
        right: u16,
        budget: u32,
        graph: *mut u16,
        graph_length: usize,
        pairs: *mut u32,
        pairs_length: usize,
        work: *mut u64,
        work_length: usize,
        flow: *mut u64,
        flow_length: usize,
        terms: *mut u32,
        terms_length: usize,
        runs: *mut u64,
        runs_length: usize,
        out: *mut u8,
        out_bytes: usize,
    ) -> Returned;

    /// The quote page's call, with the same arguments and promises.
    pub fn tariff_quote(
        image: *const u8,
        image_bytes: usize,
        left: u16,
        right: u16,
        budget: u32,
        graph: *mut u16,
        graph_length: usize,
        pairs: *mut u32,
        pairs_length: usize,
        work: *mut u64,
        work_length: usize,
        flow: *mut u64,
        flow_length: usize,
        terms: *mut u32,
        terms_length: usize,
        runs: *mut u64,
        runs_length: usize,
        out: *mut u8,
        out_bytes: usize,
    ) -> Returned;

    /// The pointer is valid for as many numbers as the length after it says.
    pub fn tariff_add_child(
        list: *mut u64,
        list_length: usize,
        terms: usize,
        class: u16,
        count: u64,
    ) -> AddedChild;

    /// The pointer is valid for as many numbers as the length after it says.
    pub fn tariff_narrow(list: *const u64, list_length: usize, terms: usize) -> NarrowedList;

    /// The lengths of a card's marks, terms and runs, as the library has them.
    pub safe fn tariff_card_lengths() -> CardLengths;

    /// The card of the term on listing lines. Each pointer is valid for as many elements as the
    /// length after it says, no two overlap, and the thread has [`STACK`] bytes of stack left.
    pub fn tariff_card(
        table: *const u8,
        table_bytes: usize,
        lines: *const u8,
        lines_bytes: usize,
        frames: *mut u64,
        frames_length: usize,
        marks: *mut u16,
        marks_length: usize,
        terms: *mut u32,
        terms_length: usize,
        runs: *mut u64,
        runs_length: usize,
        out: *mut u8,
        out_bytes: usize,
    ) -> Returned;

    /// The listing lines of a card's term, with the same arguments and promises.
    pub fn tariff_read_card(
        table: *const u8,
        table_bytes: usize,
        text: *const u8,
        text_bytes: usize,
        frames: *mut u64,
        frames_length: usize,
        marks: *mut u16,
        marks_length: usize,
        terms: *mut u32,
        terms_length: usize,
        runs: *mut u64,
        runs_length: usize,
        out: *mut u8,
        out_bytes: usize,
    ) -> Returned;
}

/// [`tariff_merge`] and [`tariff_quote`].
pub type Call = unsafe extern "C" fn(
    *const u8,
    usize,
    u16,
    u16,
    u32,
    *mut u16,
    usize,
    *mut u32,
    usize,
    *mut u64,
    usize,
    *mut u64,
    usize,
    *mut u32,
    usize,
    *mut u64,
    usize,
    *mut u8,
    usize,
) -> Returned;

/// The caller's own function.
pub fn call_of(caller: Caller) -> Call {
    match caller {
        Caller::Page => tariff_quote,
        Caller::Desk => tariff_merge,
    }
}

/// [`tariff_card`] and [`tariff_read_card`].
pub type CardCall = unsafe extern "C" fn(
    *const u8,
    usize,
    *const u8,
    usize,
    *mut u64,
    usize,
    *mut u16,
    usize,
    *mut u32,
    usize,
    *mut u64,
    usize,
    *mut u8,
    usize,
) -> Returned;

/// A child in a list of so many terms, each a class and its count, two numbers of the slice. After
/// each child the list is the monomial of the children added so far; a child that is refused leaves
/// every number as it was. Any slice and any number of terms has its answer.
pub fn add_child(list: &mut [u64], terms: usize, class: u16, count: u64) -> AddedChild {
    // SAFETY: pointer and length are the slice's own.
    unsafe { tariff_add_child(list.as_mut_ptr(), list.len(), terms, class, count) }
}

/// Whether every count of the list's terms, as [`add_child`] holds them, is at most 4,294,967,295. Of more
/// terms than the slice has places for, as many as it has. Any slice and any number of terms has its answer.
pub fn narrow(list: &[u64], terms: usize) -> NarrowedList {
    // SAFETY: pointer and length are the slice's own, and nothing is written.
    unsafe { tariff_narrow(list.as_ptr(), list.len(), terms) }
}

/// The buffers of one call after another.
pub struct Work {
    graph: Box<[u16]>,
    pairs: Box<[u32]>,
    work: Box<[u64]>,
    flow: Box<[u64]>,
    terms: Box<[u32]>,
    runs: Box<[u64]>,
    out: Box<[u8]>,
}

impl Work {
    pub fn new(output: usize) -> Work {
        Work {
            graph: vec![0; GRAPH].into(),
            pairs: vec![0; PAIRS].into(),
            work: vec![0; WORK].into(),
            flow: vec![0; FLOW].into(),
            terms: vec![0; TERMS].into(),
            runs: vec![0; RUNS].into(),
            out: vec![0; output].into(),
        }
    }

    /// The output buffer: after a call that returned 0, the listing is its first bytes.
    pub fn output(&self) -> &[u8] {
        &self.out
    }

    /// One call of the account desk in these buffers.
    ///
    /// # Safety
    ///
    /// The calling thread has [`STACK`] bytes of stack left.
    pub unsafe fn merge(&mut self, image: &[u8], left: u16, right: u16, budget: u32) -> Returned {
        // SAFETY: the same promise.
        unsafe { self.merge_for(Caller::Desk, image, left, right, budget) }
    }

    /// One call in these buffers, which serve both callers.
    ///
    /// # Safety
    ///
    /// The calling thread has [`STACK`] bytes of stack left.
    pub unsafe fn merge_for(
        &mut self,
        caller: Caller,
        image: &[u8],
        left: u16,
        right: u16,
        budget: u32,
    ) -> Returned {
        let call = call_of(caller);
        // SAFETY: each pointer and length is a slice's own; the mutable ones are seven boxes
        // of `self`, so that none overlaps another or `image`; the stack is this function's promise.
        unsafe {
            call(
                image.as_ptr(),
                image.len(),
                left,
                right,
                budget,
                self.graph.as_mut_ptr(),
                self.graph.len(),
                self.pairs.as_mut_ptr(),
                self.pairs.len(),
                self.work.as_mut_ptr(),
                self.work.len(),
                self.flow.as_mut_ptr(),
                self.flow.len(),
                self.terms.as_mut_ptr(),
                self.terms.len(),
                self.runs.as_mut_ptr(),
                self.runs.len(),
                self.out.as_mut_ptr(),
                self.out.len(),
            )
        }
    }
}

/// The buffers of one call on cards after another: about 1.4 MB, and 8 bytes for each byte beyond 65,536
/// of the longest text.
pub struct CardWork {
    frames: Vec<u64>,
    marks: Box<[u16]>,
    terms: Box<[u32]>,
    runs: Box<[u64]>,
    out: Box<[u8]>,
}

impl CardWork {
    pub fn new(output: usize) -> CardWork {
        CardWork {
            frames: vec![0; CARD_FRAMES],
            marks: vec![0; CARD_MARKS].into(),
            terms: vec![0; CARD_TERMS].into(),
            runs: vec![0; CARD_RUNS].into(),
            out: vec![0; output].into(),
        }
    }

    /// The output buffer: after a call that returned 0, the card or the lines are its first bytes.
    pub fn output(&self) -> &[u8] {
        &self.out
    }

    /// The card of the term on listing lines.
    ///
    /// # Safety
    ///
    /// The calling thread has [`STACK`] bytes of stack left.
    pub unsafe fn card(&mut self, table: &[u8], lines: &[u8]) -> Returned {
        // SAFETY: the same promise.
        unsafe { self.call(tariff_card, table, lines, CARD_FRAMES) }
    }

    /// The listing lines of a card's term.
    ///
    /// # Safety
    ///
    /// The calling thread has [`STACK`] bytes of stack left.
    pub unsafe fn read_card(&mut self, table: &[u8], text: &[u8]) -> Returned {
        if self.frames.len() < text.len() {
            self.frames.resize(text.len(), 0);
        }
        // SAFETY: the same promise.
        unsafe { self.call(tariff_read_card, table, text, text.len()) }
    }

    /// With so many frames, no more than there are: those lent are cleared.
    unsafe fn call(
        &mut self,
        call: CardCall,
        table: &[u8],
        text: &[u8],
        frames: usize,
    ) -> Returned {
        let frames = &mut self.frames[..frames];
        // SAFETY: each pointer and length is a slice's own; the mutable ones are a vector and four
        // boxes of `self`, so that none overlaps another, `table` or `text`; the stack is this
        // function's promise.
        unsafe {
            call(
                table.as_ptr(),
                table.len(),
                text.as_ptr(),
                text.len(),
                frames.as_mut_ptr(),
                frames.len(),
                self.marks.as_mut_ptr(),
                self.marks.len(),
                self.terms.as_mut_ptr(),
                self.terms.len(),
                self.runs.as_mut_ptr(),
                self.runs.len(),
                self.out.as_mut_ptr(),
                self.out.len(),
            )
        }
    }
}
