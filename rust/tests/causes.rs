//! The usual causes of refusals in `docs/NUMBERS.md`: each mistake is made, and refused with the number under which it
//! stands there. Of the mistakes that no check can see, each gives another book, or sheet, that is accepted.

#[allow(dead_code)]
#[path = "support/document.rs"]
mod document;
#[allow(dead_code)]
#[path = "support/draft.rs"]
mod draft;

use std::collections::BTreeSet;
use std::fs;

use document::{bullets_under, numbered};
use draft::{Draft, ALL, AND, NAME, NOT, OR, SOME};

const NUMBERS: &str = "../docs/NUMBERS.md";

/// N 4; A, B, "not A", "some r0 B", "all r1 (not A)", and "A and B" of these; two rules, two claims of each sort.
fn right() -> Draft {
    Draft {
        steps: 4,
        terms: vec![[NAME, 0, 0], [NAME, 1, 0], [NOT, 0, 0], [SOME, 0, 1], [ALL, 1, 2], [AND, 3, 4]],
        rules: vec![[0, 1], [5, 3]],
        memberships: vec![[0, 0, 0, 3], [1, 3, 1, 2]],
        links: vec![[0, 0, 1, 3], [1, 0, 1, 2]],
        pairs: None,
    }
}

/// The same of edition 2, with these pairs.
fn ranked(pairs: &[[u8; 2]]) -> Draft {
    Draft { pairs: Some(pairs.to_vec()), ..right() }
}

/// The specification's book, which has three candidates and one survivor, and the sheet of its model.
fn printed() -> Draft {
    Draft {
        steps: 2,
        terms: vec![[NAME, 0, 0], [NOT, 0, 0]],
        rules: vec![[0, 1], [1, 0]],
        memberships: vec![[0, 0, 0, 1]],
        links: vec![],
        pairs: None,
    }
}

const SHEET: [u8; 14] = [1, 2, 1, 1, 0, 1, 0, 12, 0, 13, 0, 13, 1, 0];

fn with(change: impl FnOnce(&mut Draft)) -> Draft {
    let mut book = right();
    change(&mut book);
    book
}

fn changed(change: impl FnOnce(&mut Vec<u8>)) -> Vec<u8> {
    let mut bytes = right().bytes();
    change(&mut bytes);
    bytes
}

fn sheet(change: impl FnOnce(&mut Vec<u8>)) -> Vec<u8> {
    let mut bytes = SHEET.to_vec();
    change(&mut bytes);
    bytes
}

fn number<T>(answer: Result<T, zegbiko::Refusal>) -> u8 {
    answer.map_or_else(|refusal| refusal.number(), |_| 0)
}

fn check(book: &[u8]) -> u8 {
    number(zegbiko::check(book))
}

fn draft(change: impl FnOnce(&mut Draft)) -> u8 {
    check(&with(change).bytes())
}

fn bytes(change: impl FnOnce(&mut Vec<u8>)) -> u8 {
    check(&changed(change))
}

fn count(change: impl FnOnce(&mut Draft)) -> u8 {
    number(zegbiko::count(&with(change).bytes()))
}

fn decide(book: &Draft, marks: usize, placement: usize) -> u8 {
    number(zegbiko::decide(&book.bytes(), &mut vec![0; marks], &mut vec![0; placement]))
}

fn imply(book: &Draft, table: usize) -> u8 {
    number(zegbiko::implied_rules(&book.bytes(), &mut [0; zegbiko::MARKS], &mut vec![0; table]))
}

fn write(book: &Draft, sheet: usize) -> u8 {
    let (mut marks, mut placement) = ([0; zegbiko::MARKS], [0; zegbiko::PLACEMENT]);
    number(zegbiko::write_sheet(&book.bytes(), &mut marks, &mut placement, &mut vec![0; sheet]))
}

fn work_out(book: &Draft, sheet: &[u8], grid: usize) -> u8 {
    number(zegbiko::work_out(&book.bytes(), sheet, &mut vec![0; grid]))
}

fn hexadecimal(bytes: &[u8]) -> Vec<u8> {
    bytes.iter().map(|byte| format!("{byte:02X}")).collect::<String>().into_bytes()
}

/// Each mistake with the number under which it stands, and the number with which it is refused.
fn mistakes() -> Vec<(u8, &'static str, u8)> {
    let of_names =
        |steps, names: u8| Draft { terms: (0..names).map(|name| [NAME, name, 0]).collect(), ..Draft::new(steps) };
    let claims = with(|book| (book.memberships, book.links) = (vec![[0, 0, 0, 3]; 64], vec![[0, 0, 1, 3]; 64]));
    let long = claims.bytes();
    assert!(long.len() > 425 && check(&long) == 0);
    let one_name = Draft { terms: vec![[NAME, 3, 0]], ..Draft::new(2) };
    let fewer_types = Draft { terms: vec![[NAME, 0, 0], [NOT, 0, 0], [NOT, 1, 0], [NOT, 2, 0]], ..Draft::new(1) };
    let five_elements = [&[1, 2, 5, 1, 0, 1, 0, 12, 0, 17, 0, 17][..], &[1; 5], &[0]].concat();
    let mut more_names = printed();
    more_names.term(NAME, 1, 0);
    vec![
        (1, "nothing was read: an empty file, a directory, a program before the pipe that failed (such as `docs/examples/bytes`), or the book's name as an argument of `decide` and nothing on its standard input", check(&[])),
        (1, "a book cut off before its head ends", bytes(|book| book.truncate(17))),
        (1, "hexadecimal text in place of the bytes, of more than 850 characters: with remarks a book of 50 bytes may have that", check(&hexadecimal(&long))),
        (1, "many books one behind the other in one file", check(&right().bytes().repeat(20))),
        (1, "a book of edition 2 that is longer than 850 bytes, and byte 0 left 1", {
            let rules = vec![[0, 1]; 64];
            let terms = vec![[NOT, 0, 0]; 58];
            let mut book = Draft { rules, pairs: Some(vec![[0, 1]; 64]), ..claims };
            book.terms.extend(terms);
            let mut bytes = book.bytes();
            assert!(bytes.len() > 850 && check(&bytes) == 0);
            bytes[0] = 1;
            check(&bytes)
        }),
        (1, "edition 2 in byte 0, in a book without terms, rules and claims that has no fifth entry", {
            let mut bytes = Draft::new(4).bytes();
            bytes[0] = 2;
            check(&bytes)
        }),
        (
            2,
            "hexadecimal text in place of the bytes: byte 0 is then a digit or a space, 30 or 20 hex",
            {
                let digit = check(&hexadecimal(&right().bytes()));
                assert_eq!(digit, check(&[b" 0: ", &hexadecimal(&right().bytes())[..]].concat()));
                digit
            },
        ),
        (2, "a byte order mark before the book", check(&[&[0xEF, 0xBB, 0xBF][..], &right().bytes()].concat())),
        (2, "a packed file in place of the book", check(&[&[0x1F, 0x8B, 8][..], &right().bytes()].concat())),
        (3, "the number of grades, N + 1, written for a chain of 8 steps", draft(|book| book.steps = 9)),
        (3, "N left 0", draft(|book| book.steps = 0)),
        (3, "the degrees' denominator, such as 10 or 100, in place of N", draft(|book| book.steps = 100)),
        (4, "a count with the low byte first", bytes(|book| book.swap(4, 5))),
        (
            4,
            "a term written anew wherever it is used, so that there are more than 64",
            draft(|book| book.terms.resize(65, [NOT, 0, 0])),
        ),
        (4, "offset and count of an entry exchanged, where the offset is above 64", {
            let book = with(|book| book.rules.resize(20, [0, 0]));
            let mut bytes = book.bytes();
            assert!(bytes[11] > 64 && check(&bytes) == 0);
            bytes[10..14].rotate_left(2);
            check(&bytes)
        }),
        (4, "a sheet that has roles, in place of the book", {
            let sheet = [1, 4, 2, 2, 1, 1, 0, 12, 0, 16, 0, 20, 0, 0, 2, 3, 0, 3, 0, 0, 0]; // the paper's, in docs/USING.md
            check(&sheet)
        }),
        (5, "a newline at the end of the file", bytes(|book| book.push(b'\n'))),
        (5, "an offset written in decimal digits: 00 36 for byte 36, which is 00 24", {
            assert_eq!(right().bytes()[7], 36);
            bytes(|book| book[7] = 0x36)
        }),
        (5, "a record with a byte too few or too many", {
            let fewer = bytes(|book| book.truncate(book.len() - 1));
            assert_eq!(fewer, bytes(|book| book.insert(20, 0)));
            fewer
        }),
        (5, "two short books one behind the other", check(&right().bytes().repeat(2))),
        (5, "an offset not moved after records were inserted before it", {
            let mut book = with(|book| book.rules.push([0, 0])).bytes();
            book[10..18].copy_from_slice(&right().bytes()[10..18]);
            check(&book)
        }),
        (5, "an offset with the low byte first", bytes(|book| book.swap(2, 3))),
        (5, "a count not raised after a record was added, or too high", {
            let not_raised = bytes(|book| book.extend([0, 0, 1, 3]));
            assert_eq!(not_raised, bytes(|book| book[17] += 1));
            not_raised
        }),
        (5, "the offset of an empty section left 0", {
            let mut book = with(|book| book.links.clear()).bytes();
            book[14..16].fill(0);
            check(&book)
        }),
        (5, "offset and count of an entry exchanged, where the offset is at most 64", bytes(|book| book[2..6].rotate_left(2))),
        (5, "a book cut off behind its head", bytes(|book| book.truncate(40))),
        (5, "an edition that does not fit the head: 2 without the fifth entry, or 1 with it", {
            let without = bytes(|book| book[0] = 2);
            let mut with = ranked(&[[0, 1]]).bytes();
            with[0] = 1;
            assert_eq!(without, check(&with));
            without
        }),
        (5, "the fifth entry added, and the offsets left as they were", {
            let mut book = ranked(&[[0, 1]]).bytes();
            assert_eq!(check(&book), 0);
            book[2..18].copy_from_slice(&right().bytes()[2..18]);
            check(&book)
        }),
        (5, "pairs that stand before the claims and not behind them", {
            let mut book = ranked(&[[0, 1]]).bytes();
            let (claims, pairs) = (usize::from(book[11]), usize::from(book[19]));
            book[claims..].rotate_right(2);
            let moved = |at: usize, offset: usize| (at, offset as u8);
            for (at, offset) in [moved(19, claims), moved(11, claims + 2), moved(15, pairs + 2 - 8)] {
                book[at] = offset;
            }
            check(&book)
        }),
        (6, "a child that is not an earlier term: the term itself, or one behind it", {
            let itself = draft(|book| book.terms[2] = [NOT, 2, 0]);
            assert_eq!(itself, draft(|book| book.terms[2] = [NOT, 3, 0]));
            itself
        }),
        (
            6,
            "terms numbered from 1, where a child stands right before its term",
            draft(|book| book.terms[5] = [AND, 4, 5]),
        ),
        (6, "a byte that must be 0 and is not: b of a name or of \"not\"", {
            let name = draft(|book| book.terms[0] = [NAME, 0, 1]);
            assert_eq!(name, draft(|book| book.terms[2] = [NOT, 0, 1]));
            name
        }),
        (6, "a role above 7 or a name above 15", {
            let role = draft(|book| book.terms[3] = [SOME, 8, 1]);
            assert_eq!(role, draft(|book| book.terms[0] = [NAME, 16, 0]));
            role
        }),
        (6, "a byte behind top or bottom that is not 0", {
            let top = draft(|book| book.terms.push([6, 0, 1]));
            assert_eq!(top, draft(|book| book.terms.push([7, 1, 0])));
            top
        }),
        (6, "role and child exchanged where the child's number is above 7", {
            let book = with(|book| book.terms.extend([[NOT, 0, 0], [NOT, 0, 0], [NOT, 0, 0], [SOME, 0, 8]]));
            assert_eq!(check(&book.bytes()), 0);
            check(&Draft { terms: [&book.terms[..9], &[[SOME, 8, 0]]].concat(), ..book }.bytes())
        }),
        (7, "terms numbered from 1, in a rule about the last one", draft(|book| book.rules[1] = [6, 3])),
        (
            7,
            "a name's number in place of its term's",
            draft(|book| (book.terms[0], book.rules[0]) = ([NAME, 12, 0], [12, 1])),
        ),
        (7, "a term taken out of the book, and not out of its rules", draft(|book| book.terms.truncate(5))),
        (8, "sense and grade exchanged, where the grade is above 3", draft(|book| book.memberships[0] = [0, 0, 4, 0])),
        (8, "a degree in percent, such as 75, in place of the grade", draft(|book| book.memberships[0][3] = 75)),
        (8, "N lowered, and a grade left above it", draft(|book| book.steps = 2)),
        (8, "individuals numbered from 1, with eight of them", draft(|book| book.memberships[1][0] = 8)),
        (8, "a set in the first byte, above 7, and the sense left 0 or 1", {
            let [meant, at_least, at_most] =
                [2, 0, 1].map(|sense| draft(|book| book.memberships[0] = [0b1010, 0, sense, 3]));
            assert!(meant == 0 && at_least == at_most);
            at_least
        }),
        (
            8,
            "senses numbered from 1, so that \"at most\" for a set is 4",
            draft(|book| book.memberships[1] = [0b11, 3, 4, 2]),
        ),
        (8, "a claim emptied by the set 0, and its term or grade filled with FF", {
            let [emptied, term, grade] = [[0, 0, 2, 3], [0, 255, 2, 3], [0, 0, 2, 255]]
                .map(|claim| draft(|book| book.memberships[0] = claim));
            assert!(emptied == 0 && term == grade);
            term
        }),
        (9, "a degree in percent, such as 75, in place of the grade", draft(|book| book.links[0][3] = 75)),
        (9, "N lowered, and a grade left above it", draft(|book| (book.steps, book.memberships[0][3]) = (2, 1))),
        (9, "individuals numbered from 1, with eight of them", draft(|book| book.links[0][2] = 8)),
        (9, "a role above 7", draft(|book| book.links[0][0] = 8)),
        (
            10,
            "names or quantified terms that no rule and no claim uses",
            count(|book| book.terms.extend([[NAME, 2, 0], [NAME, 3, 0], [SOME, 5, 0]])),
        ),
        (10, "one quantified term written twice", {
            let book = with(|book| book.terms.extend([[NAME, 2, 0], [NAME, 3, 0]]));
            assert!(zegbiko::count(&book.bytes()).is_ok());
            number(zegbiko::count(&Draft { terms: [&book.terms[..], &[[SOME, 0, 1]]].concat(), ..book }.bytes()))
        }),
        (10, "a longer chain than the claims need", {
            assert!(zegbiko::count(&of_names(2, 5).bytes()).is_ok());
            number(zegbiko::count(&of_names(8, 5).bytes()))
        }),
        (11, "a buffer sized for another book", decide(&right(), 3, 16)),
        (11, "in C, `sizeof` of a pointer in place of the array", decide(&right(), 8, 16)),
        (12, "two bytes for each individual of the book in place of 16", decide(&right(), 625, 4)),
        (
            13,
            "a name, role or individual added to the book after the sheet was made",
            work_out(&more_names, &SHEET, zegbiko::GRID),
        ),
        (13, "A, R or I counted, and not one more than the highest number", {
            let [counted, highest] = [1, 4].map(|a| [&[1, 2, 1, a, 0, 0, 0, 12, 0, 12 + a, 0, 12 + a][..], &vec![0; a.into()]].concat());
            assert_eq!(work_out(&one_name, &highest, zegbiko::GRID), 0);
            work_out(&one_name, &counted, zegbiko::GRID)
        }),
        (
            13,
            "the book's N changed after the sheet was made",
            work_out(&Draft { steps: 4, ..printed() }, &SHEET, zegbiko::GRID),
        ),
        (13, "no element, or nothing read", {
            let nothing = work_out(&printed(), &[], zegbiko::GRID);
            assert_eq!(nothing, work_out(&printed(), &sheet(|sheet| sheet[2] = 0), zegbiko::GRID));
            nothing
        }),
        (13, "a book or hexadecimal text in place of the sheet", {
            let book = work_out(&printed(), &printed().bytes(), zegbiko::GRID);
            assert_eq!(book, work_out(&printed(), &hexadecimal(&SHEET), zegbiko::GRID));
            book
        }),
        (13, "R without a role that only a link claim names", {
            let book = Draft { links: vec![[1, 0, 0, 0]], ..printed() };
            let linked = [&[1, 2, 1, 1, 2, 1, 0, 12, 0, 13, 0, 15][..], &[1, 0, 0, 0]].concat();
            assert_eq!(work_out(&book, &linked, zegbiko::GRID), 0);
            work_out(&book, &SHEET, zegbiko::GRID)
        }),
        (13, "R without a role that only a pair names", {
            let book = Draft { pairs: Some(vec![[1, 0]]), ..printed() };
            let linked = [&[1, 2, 1, 1, 2, 1, 0, 12, 0, 13, 0, 15][..], &[1, 0, 0, 0]].concat();
            assert_eq!(work_out(&book, &linked, zegbiko::GRID), 0);
            work_out(&book, &SHEET, zegbiko::GRID)
        }),
        (13, "I without an individual that only a set has", {
            let book = Draft { memberships: vec![[0b11, 0, 2, 1]], ..printed() };
            assert_eq!(work_out(&book, &[&SHEET[..5], &[2], &SHEET[6..], &[0]].concat(), zegbiko::GRID), 0);
            work_out(&book, &SHEET, zegbiko::GRID)
        }),
        (13, "I raised for an empty set", {
            let book = Draft { memberships: vec![[0, 0, 2, 1]], ..printed() };
            assert_eq!(work_out(&book, &[&SHEET[..5], &[0], &SHEET[6..13]].concat(), zegbiko::GRID), 0);
            work_out(&book, &SHEET, zegbiko::GRID)
        }),
        (13, "the book's edition in byte 0 of the sheet, where it is 2", {
            let book = Draft { pairs: Some(vec![]), ..printed() };
            assert_eq!(work_out(&book, &SHEET, zegbiko::GRID), 0);
            work_out(&book, &sheet(|sheet| sheet[0] = 2), zegbiko::GRID)
        }),
        (14, "a newline at the end of the file", work_out(&printed(), &sheet(|sheet| sheet.push(b'\n')), zegbiko::GRID)),
        (14, "an element added, and the offsets not moved", {
            let two = sheet(|sheet| (sheet[2], _) = (2, sheet.insert(12, 1)));
            work_out(&printed(), &two, zegbiko::GRID)
        }),
        (14, "n changed alone", work_out(&printed(), &sheet(|sheet| sheet[2] = 2), zegbiko::GRID)),
        (
            15,
            "a degree in percent, such as 75, in place of the grade",
            work_out(&printed(), &sheet(|sheet| sheet[12] = 75), zegbiko::GRID),
        ),
        (
            15,
            "elements numbered from 1, in an individual's place",
            work_out(&printed(), &sheet(|sheet| sheet[13] = 1), zegbiko::GRID),
        ),
        (
            16,
            "a byte for each element in place of one for each element and term",
            work_out(&printed(), &five_elements, 5),
        ),
        (16, "in C, `sizeof` of a pointer in place of the array", work_out(&printed(), &five_elements, 8)),
        (
            17,
            "rules and claims do not hold together: the outcome is 3 where no mark is set, and else 2",
            write(&Draft { steps: 1, ..printed() }, zegbiko::SHEET),
        ),
        (
            18,
            "names and quantified terms that few rules bind, so that most combinations of grades can occur (docs/USING.md, \"A model that fits on a sheet\")",
            write(&of_names(4, 3), zegbiko::SHEET),
        ),
        (19, "a buffer sized for another book", write(&printed(), 13)),
        (19, "in C, `sizeof` of a pointer in place of the array", write(&printed(), 8)),
        (
            20,
            "a type's number of another book, or of this one before a place was added or taken out",
            number(zegbiko::grade(&printed().bytes(), 8, 0)),
        ),
        (20, "candidate and term exchanged", {
            assert!(zegbiko::grade(&fewer_types.bytes(), 1, 3).is_ok());
            number(zegbiko::grade(&fewer_types.bytes(), 3, 1))
        }),
        (20, "candidates numbered from 1", number(zegbiko::grade(&printed().bytes(), 3, 0))),
        (21, "the number of terms in place of a term's", number(zegbiko::grade(&printed().bytes(), 0, 2))),
        (21, "a role above 7", number(zegbiko::link(&printed().bytes(), 8, 0, 0))),
        (22, "roles numbered from 1, with eight of them", check(&ranked(&[[7, 8]]).bytes())),
        (22, "a name's number in place of a role's, where it is above 7", check(&ranked(&[[12, 0]]).bytes())),
        (22, "rules among the pairs: both have two bytes, and a term's number may be above 7", {
            let mut book = ranked(&[[0, 1], [9, 3]]);
            book.terms.extend([[NOT, 0, 0]; 4]);
            check(&book.bytes())
        }),
        (23, "a byte for each term in place of one for each two of them", {
            assert_eq!(imply(&right(), 36), 0);
            imply(&right(), 6)
        }),
        (23, "a byte for each two terms in place of one for either order of them", imply(&right(), 15)),
        (23, "a buffer sized for another book, or for this one before a term was added", imply(&more_names, 4)),
        (23, "in C, `sizeof` of a pointer in place of the array", imply(&right(), 8)),
    ]
}

#[test]
fn causes_are_refused_with_their_number() {
    assert_eq!(check(&right().bytes()), 0);
    assert_eq!(work_out(&printed(), &SHEET, zegbiko::GRID), 0);
    let document = fs::read_to_string(NUMBERS).expect(NUMBERS);
    let written: BTreeSet<(u8, String)> = numbered(&document)
        .into_iter()
        .flat_map(|(number, text)| {
            let causes = bullets_under(&document, &format!("**{number}: {text}"));
            causes.into_iter().map(move |cause| (number, cause.to_string()))
        })
        .collect();
    let mistakes = mistakes();
    for (number, cause, refused) in &mistakes {
        assert_eq!(number, refused, "{cause}");
    }
    let made: BTreeSet<(u8, String)> =
        mistakes.into_iter().map(|(number, cause, _)| (number, cause.to_string())).collect();
    assert_eq!(made, written);
}

#[test]
fn unseen_mistakes_are_accepted() {
    let unseen: Vec<(&str, Vec<Draft>)> = vec![
        (
            "role and child of a quantified term exchanged, where both are in range",
            vec![with(|book| book.terms[3] = [SOME, 1, 0])],
        ),
        (
            "\"and\" for \"or\", \"some\" for \"all\", or any other kind that takes the same operands",
            vec![with(|book| book.terms[5][0] = OR), with(|book| book.terms[3][0] = ALL)],
        ),
        ("left and right of a rule exchanged", vec![with(|book| book.rules[0].reverse())]),
        (
            "sense 0 for 1, or 2 for 3: \"at least\" for \"at most\"",
            vec![with(|book| book.memberships[1][2] = 0), with(|book| book.memberships[1] = [0b10, 3, 2, 2])],
        ),
        (
            "sense 2 for 0, or 3 for 1: the individual's number is then read as a set, so 6 as that of individuals 1 and 2",
            vec![with(|book| book.memberships[0] = [6, 0, 2, 3]), with(|book| book.memberships[1] = [6, 3, 3, 2])],
        ),
        (
            "sense 0 for 2, or 1 for 3, where the set is at most 7: that of individuals 1 and 2 is then individual 6",
            vec![with(|book| book.memberships[0] = [0b110, 0, 0, 3]), with(|book| book.memberships[1] = [0b110, 3, 1, 2])],
        ),
        (
            "the individuals of a set numbered from 1, or its bits from the highest down",
            vec![
                with(|book| book.memberships[1] = [0b100, 3, 3, 2]), // individual 1
                with(|book| book.memberships[1] = [0b0100_0000, 3, 3, 2]),
            ],
        ),
        ("a set left empty, which claims nothing", vec![with(|book| book.memberships[1] = [0, 3, 3, 2])]),
        (
            "sense and grade of a membership claim exchanged, where the grade is 0 to 3",
            vec![
                with(|book| book.memberships[1] = [1, 3, 0, 1]), // "at most 0"
                with(|book| book.memberships[0] = [0, 0, 3, 0]),
            ],
        ),
        (
            "individual and term of a membership claim exchanged, where both are in range",
            vec![with(|book| book.memberships[1] = [3, 1, 1, 2])],
        ),
        (
            "from and to of a link claim exchanged, or role and from",
            vec![with(|book| book.links[0] = [0, 1, 0, 3]), with(|book| book.links[1] = [0, 1, 1, 2])],
        ),
        (
            "a membership claim counted among the link claims, or the other way round: both have four bytes, and may be in range either way",
            vec![
                with(|book| {
                    let claim = book.memberships.pop().expect("a claim");
                    book.links.insert(0, claim);
                }),
                with(|book| book.memberships.push(book.links.remove(0))),
            ],
        ),
        (
            "a name's number in place of its term's, where there is such a term",
            vec![with(|book| (book.terms[0], book.rules[0]) = ([NAME, 5, 0], [5, 1]))],
        ),
        (
            "one number for two names, as where fragments are pasted together that are each numbered from 0: the two are then one name",
            vec![with(|book| book.terms[1] = [NAME, 0, 0])],
        ),
        (
            "terms numbered from 1 throughout, where that still gives terms of the book and earlier children",
            vec![with(|book| {
                book.terms[2..].copy_from_slice(&[[NOT, 1, 0], [SOME, 0, 2], [ALL, 1, 3], [AND, 3, 4]]);
                book.rules = vec![[1, 2], [5, 4]];
                book.memberships = vec![[0, 1, 0, 3], [1, 4, 1, 2]];
            })],
        ),
        (
            "a term inserted before others, and the numbers in later terms, rules and claims left as they were",
            vec![with(|book| book.terms.insert(0, [NAME, 7, 0]))],
        ),
        ("N + 1 in place of N, where it is at most 8", vec![with(|book| book.steps = 5)]),
        ("N raised, and the grades of the claims left as they were", vec![with(|book| book.steps = 8)]),
    ];
    for (mistake, books) in &unseen {
        for book in books {
            assert!(book.bytes() != right().bytes() && check(&book.bytes()) == 0, "{mistake}");
        }
    }

    let placed = |claim: [u8; 4]| {
        let book = Draft { memberships: vec![claim], ..printed() };
        zegbiko::Decision::of(&book.bytes()).map(|decision| decision.placed().len())
    };
    assert_eq!([placed([6, 0, 0, 1]), placed([6, 0, 2, 1])], [Ok(7), Ok(3)]); // individuals 0 to 6, and 0 to 2

    let places_of = |second: u8| {
        let book = with(|book| book.terms[1] = [NAME, second, 0]).bytes();
        zegbiko::ImpliedRules::of(&book).map(|implied| (zegbiko::count(&book), implied.agree(0, 1)))
    };
    assert_eq!([places_of(1), places_of(0)], [Ok((Ok(625), false)), Ok((Ok(125), true))]); // four places, and three

    let on_pairs = [
        ("lower and upper role of a pair exchanged", [[0, 1]], [[1, 0]]),
        ("roles of pairs numbered from 1, where they are at most 7", [[0, 1]], [[1, 2]]),
    ];
    for (mistake, meant, made) in &on_pairs {
        assert!(check(&ranked(meant).bytes()) == 0 && check(&ranked(made).bytes()) == 0, "{mistake}");
    }
    let of_roles = Draft { terms: vec![[6, 0, 0], [SOME, 0, 0], [SOME, 1, 0]], ..Draft::new(1) };
    let listed = |pair: [u8; 2]| {
        let book = Draft { pairs: Some(vec![pair]), ..of_roles.clone() };
        zegbiko::Decision::of(&book.bytes()).map(|decision| decision.listed().collect::<Vec<_>>())
    };
    assert_ne!(listed([0, 1]), listed([1, 0]));

    let of_links = Draft { terms: vec![[NAME, 0, 0], [SOME, 0, 0]], ..Draft::new(4) };
    let sheet = |links: [u8; 4]| [&[1, 4, 2, 1, 1, 0, 0, 12, 0, 14, 0, 18, 0, 4][..], &links].concat();
    let grid = |links| {
        let mut grid = [0; 4];
        assert!(zegbiko::work_out(&of_links.bytes(), &sheet(links), &mut grid).is_ok());
        grid
    };
    assert_ne!(grid([0, 3, 0, 0]), grid([0, 0, 3, 0]));
    let on_sheets = "on a sheet, links written by the element to and then the element from";

    let document = fs::read_to_string(NUMBERS).expect(NUMBERS);
    let written = bullets_under(&document, "## Mistakes that no check can see");
    let made = unseen.iter().map(|(mistake, _)| *mistake).chain(on_pairs.map(|(mistake, ..)| mistake));
    assert_eq!(written, made.chain([on_sheets]).collect::<Vec<_>>());
}
