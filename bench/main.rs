//! Times the library as C calls it, beside the functions that it is a port of: same inputs, same process, the least of many rounds.
//! `run` builds it. With `--cfg original` the environment variable ORIGINAL names the folder of the original's `properties.rs` and
//! `properties_redaction.rs`; without it the library is timed alone.

use dollar::{Frame, Lent, Pair, Session, Syntax, Table, frames_needed};
use std::alloc::{GlobalAlloc, Layout, System};
use std::hint::black_box;
use std::sync::atomic::{AtomicUsize, Ordering};
use std::time::{Duration, Instant};

const TEXT_MAX: usize = 8192;

/// The system's allocator, with a count of what is asked of it.
struct Counting;

static ALLOCATIONS: AtomicUsize = AtomicUsize::new(0);

// SAFETY: each call is the system allocator's own.
unsafe impl GlobalAlloc for Counting {
    unsafe fn alloc(&self, layout: Layout) -> *mut u8 {
        ALLOCATIONS.fetch_add(1, Ordering::Relaxed);
        unsafe { System.alloc(layout) }
    }

    unsafe fn realloc(&self, at: *mut u8, layout: Layout, size: usize) -> *mut u8 {
        ALLOCATIONS.fetch_add(1, Ordering::Relaxed);
        unsafe { System.realloc(at, layout, size) }
    }

    unsafe fn dealloc(&self, at: *mut u8, layout: Layout) {
        unsafe { System.dealloc(at, layout) }
    }
}

#[global_allocator]
static COUNTING: Counting = Counting;

/// The original, by the same calls.
#[cfg(original)]
mod original {
    pub mod options {
        #[derive(Clone, Copy, Debug, PartialEq, Eq)]
        #[allow(dead_code)]
        pub enum PropertySyntax {
            Braced,
            BracedOrBare,
            DockerCompose,
        }
    }
    #[allow(dead_code)]
    mod properties {
        include!(concat!(env!("ORIGINAL"), "/properties.rs"));
    }
    #[allow(dead_code)]
    mod redaction {
        include!(concat!(env!("ORIGINAL"), "/properties_redaction.rs"));
    }

    use std::borrow::Cow;
    use std::cell::Cell;
    use std::collections::HashMap;
    use std::hint::black_box;

    pub struct Original {
        values: HashMap<String, String>,
        total: Cell<usize>,
    }

    impl Original {
        pub fn new(properties: &[(String, String)]) -> Self {
            Original {
                values: properties.iter().cloned().collect(),
                total: Cell::new(0),
            }
        }

        fn interpolate<'t>(&self, text: &'t [u8]) -> Cow<'t, str> {
            let text = std::str::from_utf8(text).unwrap();
            properties::interpolate_compose_style_with_limits(
                Cow::Borrowed(text),
                &self.values,
                options::PropertySyntax::Braced,
                usize::MAX,
                usize::MAX,
                &self.total,
            )
            .unwrap()
        }

        pub fn value(&self, text: &[u8]) -> Vec<u8> {
            self.interpolate(text).into_owned().into_bytes()
        }

        pub fn call(&self, text: &[u8]) {
            black_box(self.interpolate(black_box(text)));
        }

        /// A scope in which the pairs of these texts are noted.
        pub fn scope(&self, texts: &[Vec<u8>]) -> impl Sized + use<> {
            let scope = redaction::InterpRedactionScopeGuard::new();
            for text in texts {
                let effective = self.interpolate(text).into_owned();
                let raw = String::from_utf8(text.clone()).unwrap();
                drop(redaction::ScalarRedactionGuard::new(
                    redaction::ScalarRedactionCtx { raw, effective },
                ));
            }
            scope
        }

        /// It takes the message as a string of its own, so a copy is made.
        pub fn message(text: &[u8]) -> String {
            redaction::redact_custom_message(std::str::from_utf8(text).unwrap().to_owned())
        }
    }
}

#[cfg(original)]
use original::Original;

/// The memory that the library is lent, for texts of up to 8 KiB.
struct Memory {
    frames: Vec<Frame>,
    records: Vec<Pair>,
    bytes: Vec<u8>,
    area: Vec<u8>,
}

impl Memory {
    fn new(area: usize) -> Self {
        Memory {
            frames: vec![Frame::default(); frames_needed(TEXT_MAX)],
            records: vec![Pair::default(); 128],
            bytes: vec![0; 4096],
            area: vec![0; area],
        }
    }

    fn session<'a>(&'a mut self, table: Table<'a>) -> Session<'a> {
        let lent = Lent {
            frames: &mut self.frames,
            records: &mut self.records,
            bytes: &mut self.bytes,
            area: &mut self.area,
        };
        Session::open(table, b"", Syntax::Braced, usize::MAX, usize::MAX, lent).unwrap()
    }
}

/// Properties, as each kind of table lays them and as the original takes them.
struct Properties {
    pairs: Vec<(String, String)>,
    book: Vec<u8>,
    block: Vec<u8>,
}

impl Properties {
    fn new(pairs: Vec<(String, String)>) -> Self {
        let mut book = Vec::new();
        let mut block = Vec::new();
        for (name, value) in &pairs {
            let mut record = [0; 256];
            record[0] = name.len() as u8;
            record[1..1 + name.len()].copy_from_slice(name.as_bytes());
            record[64] = value.len() as u8;
            record[65..65 + value.len()].copy_from_slice(value.as_bytes());
            book.extend_from_slice(&record);
            block.extend_from_slice(format!("{name}={value}\0").as_bytes());
        }
        Properties { pairs, book, block }
    }

    fn table(&self, kind: Kind) -> Table<'_> {
        match kind {
            Kind::Book => Table::Book(&self.book),
            Kind::Block => Table::Block(&self.block),
        }
    }
}

#[derive(Clone, Copy)]
enum Kind {
    Book,
    Block,
}

/// What was measured of one case: the least time of a call, and what it allocates.
#[derive(Clone, Copy)]
struct Measured {
    nanoseconds: f64,
    allocations: usize,
}

/// Rounds of one side: how many calls a round has, and the least time so far.
struct Side<F> {
    call: F,
    calls: usize,
    measured: Measured,
}

impl<F: FnMut()> Side<F> {
    const ROUND: Duration = Duration::from_micros(200);

    fn new(mut call: F) -> Self {
        call();
        let before = ALLOCATIONS.load(Ordering::Relaxed);
        let start = Instant::now();
        call();
        let once = start.elapsed();
        let allocations = ALLOCATIONS.load(Ordering::Relaxed) - before;
        let calls = (Self::ROUND.as_nanos() / once.as_nanos().max(1)).clamp(1, 10_000) as usize;
        Side {
            call,
            calls,
            measured: Measured {
                nanoseconds: f64::MAX,
                allocations,
            },
        }
    }

    fn round(&mut self) {
        let start = Instant::now();
        for _ in 0..self.calls {
            (self.call)();
        }
        let each = start.elapsed().as_nanos() as f64 / self.calls as f64;
        self.measured.nanoseconds = self.measured.nanoseconds.min(each);
    }
}

/// Both sides in turns, so that what else the machine does falls on both; for about a second, and at least five rounds.
fn in_turns(library: impl FnMut(), original: Option<impl FnMut()>) -> (Measured, Option<Measured>) {
    let mut library = Side::new(library);
    let mut original = original.map(Side::new);
    let start = Instant::now();
    let mut rounds = 0;
    while rounds < 5 || start.elapsed() < Duration::from_millis(600) {
        library.round();
        if let Some(original) = &mut original {
            original.round();
        }
        rounds += 1;
    }
    (library.measured, original.map(|side| side.measured))
}

/// Texts, one after another in a session. Each answer is compared with the original's first.
fn values(properties: &Properties, kind: Kind, texts: &[Vec<u8>]) -> (Measured, Option<Measured>) {
    let longest = texts.iter().map(Vec::len).max().unwrap_or(0);
    let mut memory = Memory::new(longest + 64);
    let mut session = memory.session(properties.table(kind));
    #[cfg(original)]
    let original = Original::new(&properties.pairs);
    #[cfg(original)]
    for text in texts {
        assert_eq!(session.value(text).unwrap(), original.value(text));
    }
    let library = || {
        for text in texts {
            black_box(session.value(black_box(text)).is_ok());
        }
    };
    #[cfg(original)]
    let other = Some(|| texts.iter().for_each(|text| original.call(text)));
    #[cfg(not(original))]
    let other = None::<fn()>;
    in_turns(library, other)
}

/// The redaction of a message, in a scope with the pairs of these texts.
fn message(
    properties: &Properties,
    texts: &[Vec<u8>],
    said: &[u8],
) -> (Measured, Option<Measured>) {
    let mut memory = Memory::new(said.len());
    memory
        .session(properties.table(Kind::Book))
        .scope(|session| {
            for text in texts {
                session.value(text).unwrap();
            }
            #[cfg(original)]
            let _scope = Original::new(&properties.pairs).scope(texts);
            #[cfg(original)]
            assert_eq!(
                session.message(said).unwrap(),
                Original::message(said).as_bytes()
            );
            let library = || {
                black_box(session.message(black_box(said)).is_ok());
            };
            #[cfg(original)]
            let other = Some(|| {
                black_box(Original::message(black_box(said)));
            });
            #[cfg(not(original))]
            let other = None::<fn()>;
            in_turns(library, other)
        })
}

/// A line of the table of cases.
fn line(name: &str, (library, original): (Measured, Option<Measured>)) {
    let Measured {
        nanoseconds,
        allocations,
    } = library;
    match original {
        Some(original) => println!(
            "| {name} | {nanoseconds:.0} | {:.0} | {:.2} | {allocations} | {} |",
            original.nanoseconds,
            nanoseconds / original.nanoseconds,
            original.allocations
        ),
        None => println!("| {name} | {nanoseconds:.0} | | | {allocations} | |"),
    }
}

/// Microseconds at each size, and how much longer each takes than the one before.
fn row(name: &str, side: &str, times: &[f64]) {
    print!("| {name} | {side} |");
    for (i, time) in times.iter().enumerate() {
        print!(" {:.1}", time / 1000.0);
        if i > 0 {
            print!(" (x{:.1})", time / times[i - 1]);
        }
        print!(" |");
    }
    println!();
}

fn rows(name: &str, measured: &[(Measured, Option<Measured>)]) {
    row(
        name,
        "library",
        &measured
            .iter()
            .map(|(library, _)| library.nanoseconds)
            .collect::<Vec<_>>(),
    );
    if let Some(times) = measured
        .iter()
        .map(|(_, original)| original.map(|side| side.nanoseconds))
        .collect::<Option<Vec<_>>>()
    {
        row(name, "original", &times);
    }
}

/// How the time of a kind of text grows with its length.
fn growth(name: &str, properties: &Properties, text: impl Fn(usize) -> Vec<u8>) {
    let measured: Vec<_> = [1024, 2048, 4096, 8192]
        .iter()
        .map(|n| values(properties, Kind::Book, &[text(*n)]))
        .collect();
    rows(name, &measured);
}

/// How the time of a reference grows with the table: to the last name of n.
fn lookups(name: &str, kind: Kind) {
    let measured: Vec<_> = [4, 16, 64]
        .iter()
        .map(|n| {
            let properties = numbered(*n);
            values(
                &properties,
                kind,
                &[format!("limit: ${{{}}}", properties.pairs[n - 1].0).into_bytes()],
            )
        })
        .collect();
    rows(name, &measured);
}

/// Properties `CABINET_00` and so on.
fn numbered(n: usize) -> Properties {
    Properties::new(
        (0..n)
            .map(|i| (format!("CABINET_{i:02}"), format!("secret value {i:02}")))
            .collect(),
    )
}

/// Defaults inside one another.
fn nested(levels: usize) -> Vec<u8> {
    [
        b"${U:-".repeat(levels),
        b"deep".to_vec(),
        b"}".repeat(levels),
    ]
    .concat()
}

/// A reference at the front of each 16 bytes.
fn references(count: usize) -> Vec<u8> {
    b"${C}yyyyyyyyyyyy".repeat(count)
}

fn main() {
    let properties = [
        ("TARIFF_PASS", "s0l${LIMIT}ar"),
        ("C", "12"),
        ("LIMIT", "16"),
    ];
    let properties = Properties::new(
        properties
            .map(|(name, value)| (name.to_owned(), value.to_owned()))
            .to_vec(),
    );
    println!("| case | library, ns | original, ns | ratio | allocations | original's |");
    println!("|---|---|---|---|---|---|");
    let case =
        |name: &str, kind: Kind, texts: &[Vec<u8>]| line(name, values(&properties, kind, texts));
    case(
        "64 bytes, one reference",
        Kind::Book,
        &[[b"a".repeat(25), b"${TARIFF_PASS}".to_vec(), b"b".repeat(25)].concat()],
    );
    case("8 KiB without `$`", Kind::Book, &[b"x".repeat(TEXT_MAX)]);
    let many = [[references(500), b"z".repeat(192)].concat()];
    case("8 KiB, 500 references to a book", Kind::Book, &many);
    case("8 KiB, 500 references to a block", Kind::Block, &many);
    case("60 nested defaults", Kind::Book, &[nested(60)]);
    case("`${` 4,096 times", Kind::Book, &[b"${".repeat(4096)]);
    let short: Vec<_> = (0..200)
        .map(|i| format!("value {i} of ${{C}}").into_bytes())
        .collect();
    case("200 short texts, a book", Kind::Book, &short);
    case("200 short texts, a block", Kind::Block, &short);
    let secrets = numbered(64);
    let texts: Vec<_> = secrets
        .pairs
        .iter()
        .map(|(name, _)| format!("${{{name}}}").into_bytes())
        .collect();
    let said = [b"z".repeat(8000), b" secret value 07 ".to_vec()].concat();
    line(
        "message of 8 KiB, 64 pairs",
        message(&secrets, &texts, &said),
    );

    println!();
    println!("| text, µs | | 1 KiB | 2 KiB | 4 KiB | 8 KiB |");
    println!("|---|---|---|---|---|---|");
    growth("without `$`", &properties, |n| b"x".repeat(n));
    growth("a reference each 16 bytes", &properties, |n| {
        references(n / 16)
    });
    growth("nested defaults", &properties, |n| nested((n - 4) / 6));
    growth("`${` again and again", &properties, |n| b"${".repeat(n / 2));

    println!();
    println!("| one reference, µs | | 4 names | 16 names | 64 names |");
    println!("|---|---|---|---|---|");
    lookups("the last name of a book", Kind::Book);
    lookups("the last name of a block", Kind::Block);
}
