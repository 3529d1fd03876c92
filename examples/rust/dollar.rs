//! The C boundary as Rust calls it: slices in, `Result` out. Only this file has `unsafe`.

use std::fmt;

/// What the bytes of a table are.
#[derive(Clone, Copy)]
pub enum Table<'a> {
    Empty,
    Book(&'a [u8]),
    Block(&'a [u8]),
}

/// How references are written.
#[derive(Clone, Copy)]
pub enum Syntax {
    Braced = 1,
    BracedOrBare = 2,
    DockerCompose = 3,
}

#[repr(C)]
#[derive(Default)]
struct SessionNumbers {
    table_kind: u32,
    syntax: u32,
    max_depth: usize,
    max_work: usize,
    total: usize,
    breach: u32,
    breach_reached: usize,
    breach_limit: usize,
}

#[repr(C)]
#[derive(Default)]
struct Marks {
    records: usize,
    bytes: usize,
    is_open: u32,
    start: usize,
}

#[repr(C)]
#[derive(Clone, Copy)]
struct Former {
    is_open: u32,
    start: usize,
}

/// A frame: working memory of one call.
#[repr(C)]
#[derive(Clone, Copy, Default)]
pub struct Frame {
    places: [usize; 5],
    kinds: [u32; 2],
}

/// Where a pair lies in the pair bytes.
#[repr(C)]
#[derive(Clone, Copy, Default)]
pub struct Pair {
    places: [usize; 3],
}

#[repr(C)]
struct Outcome {
    refusal: u32,
    replaced: u32,
    length: usize,
    start: usize,
    end: usize,
    offset: usize,
    bad_record: usize,
    needed: usize,
    reached: usize,
    limit: usize,
}

#[repr(C)]
struct Part {
    from_area: u32,
    length: usize,
}

#[link(name = "dollar", kind = "static")]
unsafe extern "C" {
    fn dollar_open(
        session: *mut SessionNumbers,
        table_kind: u32,
        syntax: u32,
        max_depth: usize,
        max_work: usize,
        table: *const u8,
        table_len: usize,
        stem: *const u8,
        stem_len: usize,
    ) -> Outcome;
    fn dollar_value(
        session: *mut SessionNumbers,
        table: *const u8,
        table_len: usize,
        stem: *const u8,
        stem_len: usize,
        text: *const u8,
        text_len: usize,
        marks: *mut Marks,
        frames: *mut Frame,
        frames_len: usize,
        records: *mut Pair,
        records_len: usize,
        bytes: *mut u8,
        bytes_len: usize,
        area: *mut u8,
        area_len: usize,
    ) -> Outcome;
    fn dollar_message(
        text: *const u8,
        text_len: usize,
        marks: *const Marks,
        records: *const Pair,
        records_len: usize,
        bytes: *const u8,
        bytes_len: usize,
        area: *mut u8,
        area_len: usize,
    ) -> Outcome;
    fn dollar_scope_begin(marks: *mut Marks) -> Former;
    fn dollar_scope_end(marks: *mut Marks, former: Former);
    fn dollar_read(outcome: *const Outcome, text_len: usize, area_len: usize) -> Part;
}

/// Why a call has no answer: the number, the name or part where the refusal has one, and its message.
#[derive(Debug, PartialEq, Eq)]
pub struct Refusal<'a> {
    pub number: u32,
    pub part: &'a [u8],
    pub message: &'a [u8],
}

impl fmt::Display for Refusal<'_> {
    fn fmt(&self, to: &mut fmt::Formatter<'_>) -> fmt::Result {
        let part = String::from_utf8_lossy(self.part);
        let message = String::from_utf8_lossy(self.message);
        write!(to, "refused {}, {part}: {message}", self.number)
    }
}

/// The memory that a session is lent: all of it the caller's.
pub struct Lent<'a> {
    pub frames: &'a mut [Frame],
    pub records: &'a mut [Pair],
    pub bytes: &'a mut [u8],
    pub area: &'a mut [u8],
}

/// A session over a table, with the scopes of its pairs.
pub struct Session<'a> {
    numbers: SessionNumbers,
    table: &'a [u8],
    stem: &'a [u8],
    marks: Marks,
    lent: Lent<'a>,
}

impl<'a> Session<'a> {
    pub fn open(
        table: Table<'a>,
        stem: &'a [u8],
        syntax: Syntax,
        max_depth: usize,
        max_work: usize,
        lent: Lent<'a>,
    ) -> Result<Self, Refusal<'static>> {
        let (kind, table) = match table {
            Table::Empty => (1, &[][..]),
            Table::Book(bytes) => (2, bytes),
            Table::Block(bytes) => (3, bytes),
        };
        let mut session = Session {
            numbers: SessionNumbers::default(),
            table,
            stem,
            marks: Marks::default(),
            lent,
        };
        // SAFETY: the pointers and lengths are those of slices, and the session is a value of its own.
        let outcome = unsafe {
            dollar_open(
                &mut session.numbers,
                kind,
                syntax as u32,
                max_depth,
                max_work,
                table.as_ptr(),
                table.len(),
                stem.as_ptr(),
                stem.len(),
            )
        };
        if outcome.refusal == 0 {
            return Ok(session);
        }
        Err(Refusal {
            number: outcome.refusal,
            part: &[],
            message: &[],
        })
    }

    /// The text of an answer, or the refusal with its message.
    fn read<'t>(&'t self, outcome: &Outcome, text: &'t [u8]) -> Result<&'t [u8], Refusal<'t>> {
        // SAFETY: the outcome is a value.
        let part = unsafe { dollar_read(outcome, text.len(), self.lent.area.len()) };
        let from = if part.from_area == 0 {
            text
        } else {
            &*self.lent.area
        };
        let told = &from[..part.length];
        if outcome.refusal == 0 {
            return Ok(told);
        }
        Err(Refusal {
            number: outcome.refusal,
            part: &text[outcome.start..outcome.end],
            message: told,
        })
    }

    /// A value with its references replaced.
    pub fn value<'t>(&'t mut self, text: &'t [u8]) -> Result<&'t [u8], Refusal<'t>> {
        let lent = &mut self.lent;
        // SAFETY: the pointers and lengths are those of slices, and what is written is lent apart, as `&mut`.
        let outcome = unsafe {
            dollar_value(
                &mut self.numbers,
                self.table.as_ptr(),
                self.table.len(),
                self.stem.as_ptr(),
                self.stem.len(),
                text.as_ptr(),
                text.len(),
                &mut self.marks,
                lent.frames.as_mut_ptr(),
                lent.frames.len(),
                lent.records.as_mut_ptr(),
                lent.records.len(),
                lent.bytes.as_mut_ptr(),
                lent.bytes.len(),
                lent.area.as_mut_ptr(),
                lent.area.len(),
            )
        };
        self.read(&outcome, text)
    }

    /// A message with the texts of this scope's pairs in the place of their results.
    pub fn message<'t>(&'t mut self, text: &'t [u8]) -> Result<&'t [u8], Refusal<'t>> {
        let lent = &mut self.lent;
        // SAFETY: as in `value`.
        let outcome = unsafe {
            dollar_message(
                text.as_ptr(),
                text.len(),
                &self.marks,
                lent.records.as_ptr(),
                lent.records.len(),
                lent.bytes.as_ptr(),
                lent.bytes.len(),
                lent.area.as_mut_ptr(),
                lent.area.len(),
            )
        };
        self.read(&outcome, text)
    }

    /// Runs what is done in a scope; the scope ends with it, on every way out.
    pub fn scope<X>(&mut self, inside: impl FnOnce(&mut Session<'a>) -> X) -> X {
        struct Open<'s, 'a>(&'s mut Session<'a>, Former);
        impl Drop for Open<'_, '_> {
            fn drop(&mut self) {
                // SAFETY: the marks are a value of the session's own.
                unsafe { dollar_scope_end(&mut self.0.marks, self.1) }
            }
        }
        // SAFETY: as above.
        let former = unsafe { dollar_scope_begin(&mut self.marks) };
        let open = Open(self, former);
        inside(open.0)
    }

    /// The work done so far.
    pub fn total_work(&self) -> usize {
        self.numbers.total
    }
}

/// How many frames a text of n bytes needs.
pub const fn frames_needed(n: usize) -> usize {
    n / 5 + 1
}
