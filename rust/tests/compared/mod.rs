//! One call, made of the library and of the plain implementation.

pub mod tally;

use std::hint::black_box;

use crate::generate::random::Random;
use crate::plain::Plain;
use crate::support::buffer::Buffer;
use crate::support::calls::{self, Answer, Call};

/// Makes a call of both sides on buffers that held the same, and gives the answer and the buffers after it, or says what
/// differs. `plain` is the book, opened.
pub fn compare(
    random: &mut Random,
    book: &[u8],
    plain: &Plain,
    sheet: &[u8],
    call: Call,
) -> Result<(Answer, Vec<Buffer>), String> {
    let held: Vec<_> = call.lengths().into_iter().map(|length| random.bytes(length)).collect();
    let buffers = |margin| -> Vec<_> { held.iter().map(|bytes| Buffer::new(bytes, margin)).collect() };
    let mut expected = buffers(0);
    let answer = calls::plain(plain, sheet, call, &mut expected);
    let margin = 1 + random.below(64);
    for (library, margin) in [(calls::wrapped as calls::Side, margin), (calls::raw, 0)] {
        let inputs = [book, sheet].map(|bytes| Buffer::new(bytes, margin));
        let mut found = buffers(margin);
        let found_answer = library(inputs[0].contents(), inputs[1].contents(), call, &mut found);
        // A shared slice must not change; the compiler may not rely on it here, where just that is in question.
        let (inputs, found) = black_box((inputs, found));

        let mut differences = Vec::new();
        if found_answer != answer {
            differences.push(format!("plain answers {answer:?}, the library {found_answer:?}"));
        }
        for (number, (plain, library)) in expected.iter().zip(&found).enumerate() {
            let mut bytes = plain.contents().iter().zip(library.contents());
            if let Some(at) = bytes.position(|(plain, library)| plain != library) {
                differences.push(format!("buffer {number} differs from byte {at} on"));
            }
        }
        if inputs[0].contents() != book || inputs[1].contents() != sheet {
            differences.push("an input is changed".into());
        }
        if !inputs.iter().chain(&found).all(Buffer::margins_kept) {
            differences.push("a margin is changed".into());
        }
        if !differences.is_empty() {
            let differences = differences.join("; ");
            return Err(format!("{call:?}: {differences}\nbook {}\nsheet {}", hex(book), hex(sheet)));
        }
    }
    Ok((answer, expected))
}

fn hex(bytes: &[u8]) -> String {
    bytes.iter().map(|byte| format!("{byte:02X}")).collect::<Vec<_>>().join(" ")
}
