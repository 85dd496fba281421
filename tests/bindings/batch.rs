//! batch: as batch.c, through the Rust binding, in two threads. Each answer row is read as an `AnswerRow` and written back, and each
//! sheet stored by column and taken back. What is captured must have a distance in an identifier's row, and none in a literal's.
use plush::{columns, find_name, from_columns, resolve, resolve_to_vec, to_columns};
use plush::{Answer, AnswerRow, Kind, Position, Question, ANSWER_WORDS, ROW_WORDS};
use std::io::{Read, Write};

fn numbers(bytes: &[u8]) -> Vec<u32> {
    bytes.chunks_exact(4).map(|four| u32::from_le_bytes(four.try_into().unwrap())).collect()
}

fn take<'a>(bytes: &mut &'a [u8], count: usize) -> &'a [u8] {
    let (first, rest) = bytes.split_at(count);
    *bytes = rest;
    first
}

fn line(words: [u32; 8]) -> String {
    words.iter().map(|word| format!("{word:10}")).collect::<String>() + "\n"
}

fn check_distance(sheet: &[u32], found: AnswerRow) {
    if let Answer::Captured { distance, .. } = found.answer {
        let kind = sheet[ROW_WORDS * found.row as usize + columns::KIND];
        assert_eq!(distance > 0, kind == Kind::Identifier as u32, "{found:?}");
    }
}

fn report(sheet: &[u32], names: &[u8], answer: &mut [u32]) -> String {
    match resolve(sheet, names, answer) {
        Ok(resolved) => {
            let rows: Vec<_> = resolved.rows().collect();
            assert_eq!(rows.len() * 8, resolved.words().len(), "every row is read");
            rows.iter().for_each(|&row| check_distance(sheet, row));
            assert_eq!(resolve_to_vec(sheet, names), Ok((rows.clone(), resolved.globals())));
            let first = line([0, 0, 0, 0, 0, rows.len() as u32, resolved.globals(), 0]);
            first + &rows.into_iter().map(|row| line(row.to_words())).collect::<String>()
        }
        Err(refusal) => {
            assert!(answer.iter().all(|&word| word == 0), "zeros after a refusal");
            let Position { file, line: line_no, column } = refusal.position;
            let at = [file, line_no, column];
            assert!(refusal.question.has_position() || at == [0; 3], "{refusal}");
            line([refusal.question as u32, file, line_no, column, refusal.name, 0, 0, 0])
        }
    }
}

/// By column and back, both in stale words and with one word more than there is to store.
fn check_columns(sheet: &[u32]) {
    let mut columns = vec![u32::MAX; sheet.len() + 1];
    let mut back = columns.clone();
    match to_columns(sheet, &mut columns) {
        Ok(()) => {
            assert_eq!(from_columns(&columns[..sheet.len()], &mut back), Ok(()));
            assert_eq!(back.split_last(), Some((&0, sheet)), "the sheet again, and a zero");
            assert_eq!(columns.last(), Some(&0));
            assert_eq!(to_columns(sheet, &mut back[1..sheet.len()]), Err(Question::Room));
        }
        Err(question) => assert_eq!((question, columns.iter().max()), (Question::RowsFit, Some(&0))),
    }
}

/// Each name is found under its number, if question 2 lets the list pass.
fn check_names(names: &[u8], fits: bool) {
    for (i, name) in names.split_inclusive(|&byte| byte == b'\n').enumerate() {
        let found = find_name(names, name.strip_suffix(b"\n").unwrap_or(name));
        assert_eq!((found.number, found.places > 0), (fits.then_some(25 + i as u32), fits));
    }
}

/// The reports of some cases, in lent words of their own.
fn reports(cases: &[(Vec<u32>, &[u8])]) -> String {
    let mut answer = vec![u32::MAX; ANSWER_WORDS];
    let told = |(sheet, names): &(Vec<u32>, &[u8])| {
        check_columns(sheet);
        let told = report(sheet, names, &mut answer);
        if !told.starts_with("         1") {
            check_names(names, !told.starts_with("         2"));
        }
        told
    };
    cases.iter().map(told).collect()
}

fn main() {
    let mut input = Vec::new();
    std::io::stdin().read_to_end(&mut input).unwrap();
    let mut left = &input[..];
    let mut cases = Vec::new();
    while !left.is_empty() {
        let size = numbers(take(&mut left, 8));
        let sheet = numbers(take(&mut left, 4 * size[0] as usize));
        cases.push((sheet, take(&mut left, size[1] as usize)));
    }
    // in two threads at the same time, with the stack that threads have
    let (first, second) = cases.split_at(cases.len() / 2);
    let told = std::thread::scope(|scope| {
        let threads = [first, second].map(|half| scope.spawn(move || reports(half)));
        threads.map(|thread| thread.join().unwrap())
    });
    std::io::stdout().write_all(told.concat().as_bytes()).unwrap();
}
