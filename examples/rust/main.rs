//! The task of `examples/c/main.c` in Rust.

use dollar::{Frame, Lent, Pair, Session, Syntax, Table, frames_needed};

const DEPTH_MAX: usize = 8;
const WORK_MAX: usize = 100_000;
const TEXT_MOST: usize = 128;

static BLOCK: &[u8] = b"TARIFF_PASS=s0l${LIMIT}ar\0GRID=meter-7\0";

fn shown(bytes: &[u8]) -> std::borrow::Cow<'_, str> {
    String::from_utf8_lossy(bytes)
}

/// The text of a file with its references replaced, for the controller; else why there is none, for the display.
fn hand_over(session: &mut Session<'_>, file: &str) -> bool {
    match session.value(file.as_bytes()) {
        Ok(text) => {
            println!("controller: {}", shown(text));
            true
        }
        Err(refusal) => {
            println!("display: {refusal}");
            false
        }
    }
}

/// What the controller says, as it may be shown.
fn show(session: &mut Session<'_>, said: &str) {
    match session.message(said.as_bytes()) {
        Ok(text) => println!("display: {}", shown(text)),
        Err(refusal) => println!(
            "display: a message that cannot be shown ({})",
            refusal.number
        ),
    }
}

fn main() {
    let lent = Lent {
        frames: &mut [Frame::default(); frames_needed(TEXT_MOST)],
        records: &mut [Pair::default(); 8],
        bytes: &mut [0; 512],
        area: &mut [0; 256],
    };
    let opened = Session::open(
        Table::Block(BLOCK),
        b"",
        Syntax::Braced,
        DEPTH_MAX,
        WORK_MAX,
        lent,
    );
    let mut session = match opened {
        Ok(session) => session,
        Err(refusal) => {
            println!("display: the properties are unlawful ({})", refusal.number);
            std::process::exit(1);
        }
    };
    session.scope(|session| {
        if hand_over(session, "pass: ${TARIFF_PASS}") {
            show(session, "login refused: pass: s0l${LIMIT}ar");
        }
        hand_over(session, "unit: ${UNIT?set UNIT in the cabinet}");
    });
    println!("work: {}", session.total_work());
}
