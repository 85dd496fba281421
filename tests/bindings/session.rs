//! session: sessions, and orders of units, through the Rust binding. Panics if something is not as it must be.
use plush::{order_units, Answer, AnswerRow, NumberOf, Position, Question, Refusal, Session, SESSION_BYTES, SESSION_WORDS};

// Two entries of crates/session/specs/Samples.antt and their answers.
// class A { init(a, p) { a.q = p; } m(a) {} } let f = || return nil; let var b = nil;
#[rustfmt::skip]
const ENTRY_1: [u32; 192] = [
    0, 0, 1, 0, 0, 0, 0, 14, 2, 0, 2, 0, 0, 0, 0, 0, 4, 14, 3, 0, 1, 2, 25, 0, 6, 11, 4, 0, 1, 3, 23, 0, 11, 5, 0, 0, 1, 4, 26, 0,
    11, 6, 0, 0, 1, 5, 27, 0, 25, 0, 7, 0, 1, 6, 0, 0, 21, 0, 8, 0, 1, 7, 0, 0, 54, 10, 9, 0, 1, 8, 28, 0, 50, 0, 0, 0, 1, 9, 26, 0,
    50, 0, 0, 0, 1, 10, 27, 0, 6, 0, 12, 0, 1, 11, 29, 0, 11, 13, 0, 0, 1, 12, 26, 0, 25, 0, 0, 0, 1, 13, 0, 0, 6, 0, 15, 0, 1, 14, 0, 1,
    25, 0, 16, 0, 1, 15, 0, 0, 29, 21, 17, 0, 1, 16, 30, 0, 52, 0, 18, 0, 1, 17, 0, 0, 6, 0, 19, 0, 1, 18, 0, 0, 22, 0, 20, 0, 1, 19, 0, 0,
    40, 0, 0, 0, 1, 20, 0, 0, 29, 23, 22, 0, 1, 21, 31, 1, 40, 0, 0, 0, 1, 22, 0, 0, 30, 0, 0, 0, 1, 23, 2, 0,
];
#[rustfmt::skip]
const ANSWER_1: [u32; 96] = [
    2, 22, 0, 0, 1, 2, 0, 0, 2, 23, 0, 28, 0, 0, 0, 0, 2, 24, 23, 3, 0, 0, 0, 0, 2, 24, 29, 11, 0, 0, 0, 0, 3, 20, 0, 0, 0, 0, 0, 0, 9, 4, 0, 3, 0, 0, 0, 0,
    10, 4, 1, 3, 0, 0, 0, 0, 11, 20, 0, 0, 0, 0, 0, 0, 14, 20, 0, 0, 0, 0, 0, 0, 16, 1, 18, 0, 0, 0, 0, 0, 18, 20, 0, 0, 0, 0, 0, 0, 21, 3, 0, 0, 1, 0, 0, 0,
];
// class B : A {} f; A(nil); A.m(nil); b = nil; let f = nil;
#[rustfmt::skip]
const ENTRY_2: [u32; 176] = [
    0, 0, 1, 0, 0, 0, 1, 3, 2, 0, 2, 0, 0, 0, 0, 0, 4, 3, 0, 0, 1, 2, 29, 26, 6, 0, 4, 0, 1, 3, 0, 1, 25, 0, 5, 0, 1, 4, 0, 0,
    20, 7, 6, 0, 1, 5, 0, 0, 50, 0, 0, 0, 1, 6, 25, 0, 20, 11, 8, 0, 1, 7, 0, 0, 59, 0, 9, 0, 1, 8, 0, 0, 50, 10, 0, 0, 1, 9, 26, 0,
    40, 0, 0, 0, 1, 10, 0, 0, 20, 16, 12, 0, 1, 11, 0, 0, 59, 0, 13, 0, 1, 12, 0, 0, 54, 15, 14, 0, 1, 13, 28, 0, 50, 0, 0, 0, 1, 14, 26, 0,
    40, 0, 0, 0, 1, 15, 0, 0, 21, 19, 17, 0, 1, 16, 0, 0, 50, 18, 0, 0, 1, 17, 27, 0, 40, 0, 0, 0, 1, 18, 0, 0, 29, 21, 20, 0, 1, 19, 25, 0,
    40, 0, 0, 0, 1, 20, 0, 0, 30, 0, 0, 0, 1, 21, 2, 0,
];
#[rustfmt::skip]
const ANSWER_2: [u32; 80] = [
    2, 22, 258, 0, 1, 2, 0, 0, 2, 23, 0, 28, 0, 0, 0, 0, 2, 24, 23, 3, 0, 0, 0, 0, 2, 24, 29, 11, 0, 0, 0, 0, 3, 20, 0, 0, 0, 0, 0, 0, 6, 1, 18, 0, 0, 0, 0, 0,
    9, 2, 258, 0, 0, 0, 0, 0, 13, 1, 11, 0, 0, 0, 0, 0, 17, 3, 0, 0, 1, 0, 0, 0, 19, 3, 1, 0, 0, 0, 0, 0,
];
const NAMES_1: &[u8] = b"A\na\np\nq\nm\nf\nb\n";
const NAMES_2: &[u8] = b"f\nA\nb\nm\nB\n";

fn entries() {
    let mut session = Session::new();
    let mut answer = vec![7; 480];
    assert_eq!(session.names_shown(), 9);
    // A preview answers as the entry does, and changes nothing.
    let told = session.preview(&ENTRY_1, NAMES_1, &mut answer).expect("a preview of the first entry");
    assert_eq!((told.words(), told.globals()), (&ANSWER_1[..], 1));
    assert_eq!(session, Session::new());
    answer.fill(7);
    let told = session.enter(&ENTRY_1, NAMES_1, &mut answer).expect("the first entry");
    assert_eq!((told.words(), told.globals()), (&ANSWER_1[..], 1));
    assert_eq!(session.words()[..8], [1, 1, 12, 7, 14, 3, 1, 3]);
    assert_eq!(session.name_text(NumberOf::Session, 30), b"f");

    // The second entry without the first: f is not declared, which is told by the entry's number.
    let mut alone = Session::new();
    let refusal = alone.enter(&ENTRY_2, NAMES_2, &mut answer).expect_err("without the first");
    assert_eq!(refusal.question, Question::Declared);
    assert_eq!(alone.name_text(NumberOf::Entry(NAMES_2), refusal.name), b"f");
    assert!(answer.iter().all(|&word| word == 0));

    let before = session.clone();
    let refusal = session.enter(&ENTRY_2, NAMES_2, &mut answer[..79]).expect_err("79 words for 10 rows");
    assert_eq!((refusal.question, &session), (Question::Room, &before));
    let refusal = session.preview(&ENTRY_2, NAMES_2, &mut answer[..79]).expect_err("79 words for the preview of 10 rows");
    assert_eq!((refusal.question, &session), (Question::Room, &before));
    let told = session.preview(&ENTRY_2, NAMES_2, &mut answer[..80]).expect("a preview of the second entry");
    assert_eq!((told.words(), told.globals(), &session), (&ANSWER_2[..], 2, &before));
    let told = session.enter(&ENTRY_2, NAMES_2, &mut answer[..80]).expect("the second entry");
    assert_eq!((told.words(), told.globals()), (&ANSWER_2[..], 2));
    assert_eq!(told.rows().nth(6), Some(AnswerRow { row: 9, answer: Answer::Class { class: 258 } }));
    assert_eq!(session.words()[..8], [2, 2, 13, 8, 16, 5, 2, 6]);
    assert_eq!((session.globals(), session.name_text(NumberOf::Session, 32)), (2, &b"B"[..]));

    // Taken back, and entered again from the globals that it used.
    let both = session.clone();
    session.withdraw().expect("the second entry is withdrawn");
    assert_eq!((session.entries(), session.globals(), session.name_text(NumberOf::Session, 32)), (1, 2, &b""[..]));
    assert_eq!((&session.words()[2..8], session.bytes()), (&before.words()[2..8], both.bytes()));
    session.withdraw().expect("the first entry is withdrawn");
    assert_eq!((before.names_shown(), both.names_shown(), session.names_shown()), (12, 13, 9));
    let none = session.clone();
    let refusal = session.withdraw().expect_err("no entry is left");
    assert_eq!((refusal.question, refusal.question as u32, session.entries(), &session), (Question::EntryLeft, 25, 0, &none));
    session = both;

    // It starts at global 1, and the session has 2 now.
    let before = session.clone();
    let refusal = session.enter(&ENTRY_2, NAMES_2, &mut answer).expect_err("the second entry again");
    assert_eq!((refusal.question, &session), (Question::Session, &before));

    let mut words = before.words().to_vec();
    words[3] = 9;
    answer.fill(7);
    let mut broken = Session::from_parts(words, before.bytes().to_vec());
    let before = broken.clone();
    let refusal = broken.enter(&ENTRY_2, NAMES_2, &mut answer).expect_err("words that are no session");
    assert_eq!((refusal.question, refusal.question as u32, refusal.name, &broken), (Question::Session, 23, 0, &before));
    assert!(answer.iter().all(|&word| word == 0));
    assert_eq!(broken.withdraw().expect_err("nor are they for a withdrawal").question, Question::Session);
    // Nor are words with one name on show less or more than a recount finds.
    for shown in [12, 14] {
        let mut words = session.words().to_vec();
        words[2] = shown;
        let mut broken = Session::from_parts(words, session.bytes().to_vec());
        assert_eq!(broken.preview(&ENTRY_2, NAMES_2, &mut answer).expect_err("another number on show").question, Question::Session);
        assert_eq!(broken.withdraw().expect_err("nor for a withdrawal").question, Question::Session);
    }
    let refusal = Session::from_parts(Vec::new(), Vec::new()).enter(&ENTRY_1, NAMES_1, &mut []).expect_err("no words");
    assert_eq!(refusal.question, Question::Session);
}

/// Three units, in rows 1, 5 and 9: the first imports that in row `first`, the second that in row `second`.
#[rustfmt::skip]
fn units(first: u32, second: u32) -> [u32; 96] {
    [
        0, 0, 1, 0, 0, 0, 0, 0, 2, 5, 2, 7, 1, 1, 0, 0, 3, 3, 0, 7, 1, 2, first, 0, 6, 0, 4, 7, 1, 3, 0, 1, 25, 0, 0, 7, 1, 4, 0, 0, 2, 9, 6, 7, 2, 20000, 0, 0,
        3, 7, 0, 7, 2, 2, second, 1, 6, 0, 8, 7, 2, 3, 0, 1, 25, 0, 0, 7, 2, 4, 0, 0, 2, 0, 10, 7, 3, 1, 0, 0, 6, 0, 11, 7, 3, 3, 0, 1, 25, 0, 0, 7, 3, 4, 0, 0,
    ]
}

fn orders() {
    let mut list = [7; 5];
    assert_eq!(order_units(&units(5, 9), b"", &mut list), Ok(&[9, 5, 1][..]));
    assert_eq!(list, [9, 5, 1, 0, 0]);
    assert_eq!(order_units(&units(9, 1), b"", &mut list[..3]), Ok(&[9, 1, 5][..]));
    let whole = Position { file: 0, line: 0, column: 0 };
    list.fill(7);
    assert_eq!(order_units(&units(5, 9), b"", &mut list[..2]), Err(Refusal { question: Question::Room, position: whole, name: 0 }));
    assert_eq!(list, [0, 0, 7, 7, 7]);
    let refusal = order_units(&units(5, 5), b"", &mut []).expect_err("the second imports itself");
    assert_eq!(refusal, Refusal { question: Question::NoCircle, position: Position { file: 7, line: 2, column: 16383 }, name: 0 });
    assert_eq!(refusal.to_string(), "a unit is on a circle of imports (question 29; file 7, line 2, column 16383)");
}

fn main() {
    orders();
    entries();
    let names = b"f\np\n";
    let mut session = Session::new();
    assert_eq!(session, Session::default());
    assert_eq!((session.words().len(), session.bytes().len()), (SESSION_WORDS, SESSION_BYTES));
    assert_eq!(session.name_text(NumberOf::Session, 6), b"Dict");
    assert_eq!(session.name_text(NumberOf::Session, 25), b"");
    assert_eq!(session.name_text(NumberOf::Entry(names), 6), b"Dict");
    assert_eq!(session.name_text(NumberOf::Entry(names), 26), b"p");
    assert_eq!(session.name_text(NumberOf::Entry(b"f\np"), 26), b"");
    // The text is a part of what was lent, not a copy.
    assert_eq!(session.name_text(NumberOf::Entry(names), 26).as_ptr(), names[2..].as_ptr());
    assert_eq!(session.name_text(NumberOf::Session, 1).as_ptr(), session.bytes().as_ptr());

    let mut bytes = session.bytes().to_vec();
    bytes[0] = b'i';
    let broken = Session::from_parts(session.words().to_vec(), bytes);
    assert_eq!(broken.name_text(NumberOf::Session, 6), b"");
    assert_eq!(Session::from_parts(Vec::new(), Vec::new()).name_text(NumberOf::Session, 6), b"");
    let fresh = session.clone();
    session.clear();
    assert_eq!(session, fresh);
    println!("session: orders of units, fresh sessions, texts of names, entries and refusals through the Rust binding, as they must be");
}
