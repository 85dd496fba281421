//! The unchanged resolver of Plush behind the sheet of document 01. The sheet must pass questions 1 to 4.
//!
//!   oracle SHEET NAMES                  resolve one sheet
//!   oracle --batch FILE                 resolve many: in FILE, for each case, a line "ID SHEETBYTES NAMEBYTES",
//!                                       then that many bytes of each; before each answer stands "CASE ID"
//!   oracle --sessions FILE              runs of entries at the prompt: in FILE, for each request, a line "ID WORD SHEETBYTES
//!                                       NAMEBYTES", then that many bytes of each; WORD is fresh, enter, try or withdraw; before
//!                                       each answer stands "CASE ID", after it the session, as session.rs tells it
//!   oracle --time N SHEET NAMES         time resolve_syms alone, on a tree that is built
//!   oracle --time-words N SHEET NAMES   time it from the rows in memory to the answer rows: tree, resolve_syms, rows
//!   oracle --time-full N SHEET NAMES    time it all, from text to text
//!   oracle --time-sessions N FILE       as --sessions, with the words fresh, enter and time: entries that must be accepted, and
//!                                       entries that are timed over the session as it stands, resolve_repl_unit alone and from
//!                                       the rows in memory to the answer rows; the session stays
//!
//! An answer is the program's output, or one line: ERR file line column message; HOST and the same, if the host table
//! of core methods was asked; PANIC message.
mod answers;
mod ast;
mod session;
mod sheet;
mod shims;
/// The unchanged text of Plush, and inside of it the module that may read its private parts.
#[path = "."]
mod symbols {
    include!("symbols.rs");
    #[path = "opened.rs"]
    pub mod opened;
}
use shims::{alloc, host, lexer, libcore, value};

use sheet::{parse_rows, Row, Sheet};
use std::fmt::Write as _;
use std::io::Write as _;
use std::time::Instant;

fn print_row(out: &mut String, row: &Row) {
    for number in row {
        write!(out, "{number:>10}").unwrap();
    }
    out.push('\n');
}

fn refused(error: lexer::ParseError) -> String {
    let (word, pos) = (if libcore::take_asked() { "HOST" } else { "ERR" }, error.pos);
    format!("{word} {} {} {} {}\n", pos.file_id(), pos.line_no(), pos.col_no(), error.msg)
}

fn panicked(panic: Box<dyn std::any::Any + Send>) -> String {
    let message = match panic.downcast_ref::<String>() {
        Some(message) => message,
        None => *panic.downcast_ref::<&str>().unwrap(),
    };
    format!("PANIC {}\n", message.replace('\n', " "))
}

fn answered(rows: &[Row], globals: u32) -> String {
    let mut out = String::with_capacity(81 * (rows.len() + 1));
    print_row(&mut out, &[0, 0, 0, 0, 0, rows.len() as u32, globals, 0]);
    rows.iter().for_each(|row| print_row(&mut out, row));
    out
}

fn printed(sheet: &Sheet) -> String {
    let mut prog = sheet.program();
    match prog.resolve_syms() {
        Err(error) => refused(error),
        Ok(()) => answered(&answers::answers(sheet, &prog), prog.num_globals),
    }
}

fn resolve(sheet: &[u8], names: &[u8]) -> String {
    let sheet = Sheet::new(parse_rows(sheet), names);
    std::panic::catch_unwind(|| printed(&sheet)).unwrap_or_else(panicked)
}

/// Hands each request of a file to `reply`: the words between its first and its last two, a sheet and names.
fn replies(path: &str, mut reply: impl FnMut(&[&str], &[u8], &[u8]) -> String) {
    let data = std::fs::read(path).unwrap();
    let mut rest = &data[..];
    let mut out = std::io::stdout().lock();
    while let Some(end) = rest.iter().position(|&b| b == 10) {
        let head: Vec<&str> = std::str::from_utf8(&rest[..end]).unwrap().split(' ').collect();
        let [id, words @ .., sheet_bytes, name_bytes] = &head[..] else { panic!("a short line in {path}") };
        let (sheet, after) = rest[end + 1..].split_at(sheet_bytes.parse().unwrap());
        let (names, after) = after.split_at(name_bytes.parse().unwrap());
        write!(out, "CASE {id}\n{}", reply(words, sheet, names)).unwrap();
        rest = after;
    }
}

fn batch(path: &str) {
    replies(path, |_, sheet, names| resolve(sheet, names));
}

fn sessions(path: &str) {
    let mut session = session::Session::new();
    replies(path, |words, sheet, names| match words {
        ["fresh"] => {
            session = session::Session::new();
            session.told()
        }
        ["enter"] => session.enter(sheet, names) + &session.told(),
        ["try"] => {
            let (trial, answer) = session.tried(sheet, names);
            answer + &trial.told()
        }
        ["withdraw"] => {
            session.withdraw();
            session.told()
        }
        _ => panic!("the words of a request stand at the head of main.rs"),
    });
}

fn timed(what: &str, count: usize, mut once: impl FnMut() -> u64) -> String {
    let mut times: Vec<u64> = (0..count).map(|_| once()).collect();
    times.sort();
    let mean = times.iter().sum::<u64>() / count as u64;
    format!("{what}: {count} times, mean {mean} ns, median {} ns, least {} ns\n", times[count / 2], times[0])
}

fn time(what: &str, count: usize, once: impl FnMut() -> u64) {
    print!("{}", timed(what, count, once));
}

fn time_resolve(count: usize, sheet: &[u8], names: &[u8]) {
    let tree = Sheet::new(parse_rows(sheet), names).program();
    time("resolve_syms", count, || {
        let mut prog = tree.clone();
        let start = Instant::now();
        let result = prog.resolve_syms();
        let elapsed = start.elapsed().as_nanos() as u64;
        std::hint::black_box(&result);
        elapsed
    });
}

fn time_words(count: usize, sheet: &[u8], names: &[u8]) {
    let rows = parse_rows(sheet);
    time("words to words", count, || {
        let rows = rows.clone();
        let start = Instant::now();
        let sheet = Sheet::new(rows, names);
        let mut prog = sheet.program();
        let result = prog.resolve_syms();
        let answer = answers::answers(&sheet, &prog);
        let elapsed = start.elapsed().as_nanos() as u64;
        std::hint::black_box((&result, &answer));
        elapsed
    });
}

fn time_full(count: usize, sheet: &[u8], names: &[u8]) {
    time("text to text", count, || {
        let start = Instant::now();
        std::hint::black_box(resolve(sheet, names));
        start.elapsed().as_nanos() as u64
    });
}

fn time_sessions(count: usize, path: &str) {
    let mut session = session::Session::new();
    replies(path, |words, sheet, names| match words {
        ["fresh"] => {
            session = session::Session::new();
            String::new()
        }
        ["enter"] => {
            let answer = session.enter(sheet, names);
            assert!(answer.starts_with("         0"), "{answer}");
            String::new()
        }
        ["time"] => {
            let (rows, mut numbers) = (parse_rows(sheet), session.numbers());
            numbers.reserve(1024);
            timed("resolve_repl_unit", count, || session.elapsed_unit(rows.clone(), names, numbers.clone()))
                + &timed("words to words", count, || session.elapsed(rows.clone(), names, numbers.clone()))
        }
        _ => panic!("the words of a request stand at the head of main.rs"),
    });
}

fn run() {
    let args: Vec<String> = std::env::args().skip(1).collect();
    let args: Vec<&str> = args.iter().map(|arg| arg.as_str()).collect();
    let read = |path| std::fs::read(path).unwrap();
    match args[..] {
        ["--batch", file] => batch(file),
        ["--sessions", file] => sessions(file),
        ["--time", count, sheet, names] => time_resolve(count.parse().unwrap(), &read(sheet), &read(names)),
        ["--time-words", count, sheet, names] => time_words(count.parse().unwrap(), &read(sheet), &read(names)),
        ["--time-full", count, sheet, names] => time_full(count.parse().unwrap(), &read(sheet), &read(names)),
        ["--time-sessions", count, file] => time_sessions(count.parse().unwrap(), file),
        [sheet, names] => print!("{}", resolve(&read(sheet), &read(names))),
        _ => panic!("the ways to call it stand at the head of main.rs"),
    }
}

/// A deep tree wants a large stack. Panics of the resolver are answers, so they are not printed.
fn main() {
    let silent_in_resolver = |info: &std::panic::PanicHookInfo| {
        let in_resolver = info.location().is_some_and(|at| !at.file().ends_with("main.rs"));
        if !in_resolver {
            eprintln!("oracle: {info}");
        }
    };
    std::panic::set_hook(Box::new(silent_in_resolver));
    let thread = std::thread::Builder::new().stack_size(256 << 20).spawn(run).unwrap();
    if thread.join().is_err() {
        std::process::exit(2);
    }
}
