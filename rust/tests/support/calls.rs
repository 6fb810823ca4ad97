//! The eight calls, made of each side and answered in one form.

use zegbiko::raw;

use super::buffer::Buffer;
use crate::plain::grades::Verdict;
use crate::plain::placement::Decision;
use crate::plain::Plain;

/// A call, with the lengths of the buffers that it may write.
#[derive(Clone, Copy, Debug)]
pub enum Call {
    Check,
    Count,
    Decide { marks: usize, placement: usize },
    ImpliedRules { marks: usize, table: usize },
    WriteSheet { marks: usize, placement: usize, sheet: usize },
    WorkOut { grid: usize },
    Grade { candidate: usize, term: usize },
    Link { role: u8, from: usize, to: usize },
}

impl Call {
    pub fn name(self) -> &'static str {
        match self {
            Call::Check => "check",
            Call::Count => "count",
            Call::Decide { .. } => "decide",
            Call::ImpliedRules { .. } => "implied_rules",
            Call::WriteSheet { .. } => "write_sheet",
            Call::WorkOut { .. } => "work_out",
            Call::Grade { .. } => "grade",
            Call::Link { .. } => "link",
        }
    }

    pub fn lengths(self) -> Vec<usize> {
        match self {
            Call::Decide { marks, placement } => vec![marks, placement],
            Call::ImpliedRules { marks, table } => vec![marks, table],
            Call::WriteSheet { marks, placement, sheet } => vec![marks, placement, sheet],
            Call::WorkOut { grid } => vec![grid],
            Call::Check | Call::Count | Call::Grade { .. } | Call::Link { .. } => vec![],
        }
    }
}

/// The fields of the C answer in order, `refusal` first; 0 where it has none.
pub type Answer = [usize; 5];

/// The answer that begins with these fields.
pub fn answer<const N: usize>(fields: [usize; N]) -> Answer {
    let mut answer = [0; 5];
    answer[..N].copy_from_slice(&fields);
    answer
}

/// A side of the comparison: takes a book, a sheet (where the call does), the call and its buffers.
pub type Side = fn(&[u8], &[u8], Call, &mut [Buffer]) -> Answer;

/// What every side answers and leaves, each in buffers that held this; `plain` is the book, opened.
pub fn on_every_side(
    book: &[u8],
    plain: &Plain,
    sheet: &[u8],
    call: Call,
    held: &[Vec<u8>],
) -> [(Answer, Vec<Buffer>); 3] {
    type Asked<'a> = &'a dyn Fn(&mut [Buffer]) -> Answer;
    let sides: [Asked; 3] = [
        &|buffers| self::plain(plain, sheet, call, buffers),
        &|buffers| wrapped(book, sheet, call, buffers),
        &|buffers| raw(book, sheet, call, buffers),
    ];
    sides.map(|side| {
        let mut buffers: Vec<_> = held.iter().map(|bytes| Buffer::new(bytes, 0)).collect();
        (side(&mut buffers), buffers)
    })
}

/// The plain implementation.
pub fn plain(book: &Plain, sheet: &[u8], call: Call, buffers: &mut [Buffer]) -> Answer {
    let result = match (call, buffers) {
        (Call::Check, _) => book.book().map(|_| answer([0])),
        (Call::Count, _) => book.count().map(|candidates| answer([0, candidates])),
        (Call::Decide { .. }, [marks, placement]) => {
            book.decide(marks.contents_mut(), placement.contents_mut()).map(|(decision, survivors)| match decision {
                Decision::HoldsTogether(_) => answer([0, 1, survivors]),
                Decision::ClaimsFail => answer([0, 2, survivors]),
                Decision::NoModel => answer([0, 3, survivors]),
            })
        }
        (Call::ImpliedRules { .. }, [marks, table]) => {
            book.implied_rules(marks.contents_mut(), table.contents_mut()).map(|survivors| answer([0, survivors]))
        }
        (Call::WriteSheet { .. }, [marks, placement, sheet]) => book
            .write_sheet(marks.contents_mut(), placement.contents_mut(), sheet.contents_mut())
            .map(|length| answer([0, length])),
        (Call::WorkOut { .. }, [grid]) => book.work_out(sheet, grid.contents_mut()).map(|verdict| match verdict {
            Verdict::Meets => answer([0, 0]),
            Verdict::BreaksRule { rule, element } => answer([0, 1, rule, element]),
            Verdict::BreaksMembership { claim } => answer([0, 2, claim]),
            Verdict::BreaksLink { claim } => answer([0, 3, claim]),
            Verdict::BreaksPair { pair, first, second } => answer([0, 4, pair, first, second]),
        }),
        (Call::Grade { candidate, term }, _) => book.grade(candidate, term).map(|grade| answer([0, grade.into()])),
        (Call::Link { role, from, to }, _) => book.link(role, from, to).map(|link| answer([0, link.into()])),
        _ => unreachable!("a call comes with its buffers"),
    };
    result.unwrap_or_else(|number| answer([number.into()]))
}

/// The library, by the safe wrapper.
pub fn wrapped(book: &[u8], sheet: &[u8], call: Call, buffers: &mut [Buffer]) -> Answer {
    let result = match (call, buffers) {
        (Call::Check, _) => zegbiko::check(book).map(|()| answer([0])),
        (Call::Count, _) => zegbiko::count(book).map(|candidates| answer([0, candidates])),
        (Call::Decide { .. }, [marks, placement]) => {
            zegbiko::decide(book, marks.contents_mut(), placement.contents_mut())
                .map(|decided| answer([0, decided.outcome as usize, decided.survivors]))
        }
        (Call::ImpliedRules { .. }, [marks, table]) => {
            zegbiko::implied_rules(book, marks.contents_mut(), table.contents_mut())
                .map(|survivors| answer([0, survivors]))
        }
        (Call::WriteSheet { .. }, [marks, placement, sheet]) => {
            zegbiko::write_sheet(book, marks.contents_mut(), placement.contents_mut(), sheet.contents_mut())
                .map(|length| answer([0, length]))
        }
        (Call::WorkOut { .. }, [grid]) => zegbiko::work_out(book, sheet, grid.contents_mut()).map(|v| match v {
            zegbiko::Verdict::Meets => answer([0, 0]),
            zegbiko::Verdict::BreaksRule { rule, element } => answer([0, 1, rule, element]),
            zegbiko::Verdict::BreaksMembership { claim } => answer([0, 2, claim]),
            zegbiko::Verdict::BreaksLink { claim } => answer([0, 3, claim]),
            zegbiko::Verdict::BreaksPair { pair, first, second } => answer([0, 4, pair, first, second]),
            _ => unreachable!("a verdict that the tests do not know"),
        }),
        (Call::Grade { candidate, term }, _) => zegbiko::grade(book, candidate, term).map(|g| answer([0, g.into()])),
        (Call::Link { role, from, to }, _) => zegbiko::link(book, role, from, to).map(|link| answer([0, link.into()])),
        _ => unreachable!("a call comes with its buffers"),
    };
    result.unwrap_or_else(|refusal| answer([refusal.number().into()]))
}

/// The library, by the C calls: a refused one must have 0 in every other field.
pub fn raw(book: &[u8], sheet: &[u8], call: Call, buffers: &mut [Buffer]) -> Answer {
    let (pointer, length) = (book.as_ptr(), book.len());
    let out = |buffer: &mut Buffer| (buffer.contents_mut().as_mut_ptr(), buffer.contents().len());
    // SAFETY: each pointer and length is that of one slice, and no two of them overlap.
    unsafe {
        match (call, buffers) {
            (Call::Check, _) => answer([raw::zegbiko_check(pointer, length).into()]),
            (Call::Count, _) => {
                let counted = raw::zegbiko_count(pointer, length);
                answer([counted.refusal.into(), counted.candidates as usize])
            }
            (Call::Decide { .. }, [marks, placement]) => {
                let ((m, m_length), (p, p_length)) = (out(marks), out(placement));
                let decided = raw::zegbiko_decide(pointer, length, m, m_length, p, p_length);
                answer([decided.refusal.into(), decided.outcome.into(), decided.survivors])
            }
            (Call::ImpliedRules { .. }, [marks, table]) => {
                let ((m, m_length), (t, t_length)) = (out(marks), out(table));
                let implied = raw::zegbiko_implied_rules(pointer, length, m, m_length, t, t_length);
                answer([implied.refusal.into(), implied.survivors])
            }
            (Call::WriteSheet { .. }, [marks, placement, sheet]) => {
                let ((m, m_length), (p, p_length), (s, s_length)) = (out(marks), out(placement), out(sheet));
                let written = raw::zegbiko_write_sheet(pointer, length, m, m_length, p, p_length, s, s_length);
                answer([written.refusal.into(), written.length])
            }
            (Call::WorkOut { .. }, [grid]) => {
                let (g, g_length) = out(grid);
                let worked = raw::zegbiko_work_out(pointer, length, sheet.as_ptr(), sheet.len(), g, g_length);
                answer([worked.refusal.into(), worked.verdict.into(), worked.number, worked.element, worked.second])
            }
            (Call::Grade { candidate, term }, _) => {
                let graded = raw::zegbiko_grade(pointer, length, candidate, term);
                answer([graded.refusal.into(), graded.grade.into()])
            }
            (Call::Link { role, from, to }, _) => {
                let graded = raw::zegbiko_link(pointer, length, role, from, to);
                answer([graded.refusal.into(), graded.grade.into()])
            }
            _ => unreachable!("a call comes with its buffers"),
        }
    }
}
