//! session_driver COUNT FILE: goes through runs of entries of make_session_cases.py and times those to be timed: `enter`, `preview`, question 23 alone, the
//! writing of the outside alone. `enter` and `preview` are timed in turn. Prints a line for each measurement: the request, what it is, the median and the least time in nanoseconds.
//! session_driver --sessions FILE: prints the eight counts of the session that each is entered into, and the question that refuses it.
//! session_driver --stack BYTES ID FILE: previews the one of that identifier and enters it, once, in a thread with a stack of that size.
use std::hint::black_box;
use std::time::Instant;

// A slice is passed as a pointer and a length.
extern "C" {
    fn bench_fresh(words: *mut u32, word_count: usize, bytes: *mut u8, byte_count: usize);
    fn bench_enter(words: *mut u32, word_count: usize, bytes: *mut u8, byte_count: usize, sheet: *const u32, sheet_words: usize,
                   names: *const u8, name_bytes: usize, out: *mut u32, out_words: usize) -> u32;
    fn bench_preview(words: *const u32, word_count: usize, bytes: *const u8, byte_count: usize, sheet: *const u32, sheet_words: usize,
                     names: *const u8, name_bytes: usize, out: *mut u32, out_words: usize) -> u32;
    fn bench_check(words: *const u32, word_count: usize, bytes: *const u8, byte_count: usize) -> usize;
    fn bench_outside(words: *const u32, word_count: usize, bytes: *const u8, byte_count: usize, out: *mut u32, out_words: usize) -> usize;
}

// What the program lends: a session, 2,048 answer rows, the words of an outside.
const SESSION_WORDS: usize = 51088;
const SESSION_BYTES: usize = 32936;
const ANSWER_WORDS: usize = 8 * 2048;
const OUTSIDE_WORDS: usize = 41198;

#[derive(Clone)]
struct Session {
    words: Vec<u32>,
    bytes: Vec<u8>,
}

impl Session {
    fn fresh() -> Session {
        let mut session = Session { words: vec![0; SESSION_WORDS], bytes: vec![0; SESSION_BYTES] };
        let Session { words, bytes } = &mut session;
        unsafe { bench_fresh(words.as_mut_ptr(), words.len(), bytes.as_mut_ptr(), bytes.len()) };
        session
    }

    fn enter(&mut self, entry: &Entry, out: &mut [u32]) -> u32 {
        let (Session { words, bytes }, Entry { sheet, names }) = (self, entry);
        let (words, word_count, bytes, byte_count) = (words.as_mut_ptr(), words.len(), bytes.as_mut_ptr(), bytes.len());
        let (sheet, sheet_words, names, name_bytes) = (sheet.as_ptr(), sheet.len(), names.as_ptr(), names.len());
        unsafe { bench_enter(words, word_count, bytes, byte_count, sheet, sheet_words, names, name_bytes, out.as_mut_ptr(), out.len()) }
    }

    fn preview(&self, entry: &Entry, out: &mut [u32]) -> u32 {
        let (Session { words, bytes }, Entry { sheet, names }) = (self, entry);
        let (words, word_count, bytes, byte_count) = (words.as_ptr(), words.len(), bytes.as_ptr(), bytes.len());
        let (sheet, sheet_words, names, name_bytes) = (sheet.as_ptr(), sheet.len(), names.as_ptr(), names.len());
        unsafe { bench_preview(words, word_count, bytes, byte_count, sheet, sheet_words, names, name_bytes, out.as_mut_ptr(), out.len()) }
    }

    fn check(&self) -> usize {
        let Session { words, bytes } = self;
        unsafe { bench_check(words.as_ptr(), words.len(), bytes.as_ptr(), bytes.len()) }
    }

    /// Question 23, and the words of the outside.
    fn outside(&self, out: &mut [u32]) -> usize {
        let Session { words, bytes } = self;
        unsafe { bench_outside(words.as_ptr(), words.len(), bytes.as_ptr(), bytes.len(), out.as_mut_ptr(), out.len()) }
    }

    fn copy_from(&mut self, other: &Session) {
        self.words.copy_from_slice(&other.words);
        self.bytes.copy_from_slice(&other.bytes);
    }
}

struct Entry {
    sheet: Vec<u32>,
    names: Vec<u8>,
}

fn words_of(text: &str) -> Vec<u32> {
    let numbers = text.lines().flat_map(|line| (0..8).map(|i| line[10 * i..10 * i + 10].trim()));
    numbers.map(|number| number.parse().unwrap()).collect()
}

/// Hands each entry to be timed over, with its identifier and the session that it is entered into.
fn each_timed(path: &str, mut timed: impl FnMut(&str, &Session, &Entry)) {
    let data = std::fs::read(path).unwrap();
    let mut rest = &data[..];
    let (mut session, mut out) = (Session::fresh(), vec![0; ANSWER_WORDS]);
    while let Some(end) = rest.iter().position(|&b| b == 10) {
        let head: Vec<&str> = std::str::from_utf8(&rest[..end]).unwrap().split(' ').collect();
        let [id, word, sheet_bytes, name_bytes] = head[..] else { panic!("a short line in {path}") };
        let (sheet, after) = rest[end + 1..].split_at(sheet_bytes.parse().unwrap());
        let (names, after) = after.split_at(name_bytes.parse().unwrap());
        let entry = Entry { sheet: words_of(std::str::from_utf8(sheet).unwrap()), names: names.to_vec() };
        match word {
            "fresh" => session = Session::fresh(),
            "enter" => assert_eq!(session.enter(&entry, &mut out), 0, "entry {id}"),
            _ => timed(id, &session, &entry),
        }
        rest = after;
    }
}

fn timed<T>(times: &mut Vec<u64>, (start, answer): (Instant, T)) {
    times.push(start.elapsed().as_nanos() as u64);
    black_box(answer);
}

fn print(what: &str, mut times: Vec<u64>) {
    times.sort();
    println!("{what} {} {}", times[times.len() / 2], times[0]);
}

fn time<T>(what: &str, count: usize, mut once: impl FnMut() -> (Instant, T)) {
    let mut times = Vec::with_capacity(count);
    for _ in 0..count {
        timed(&mut times, once());
    }
    print(what, times);
}

fn time_all(count: usize, id: &str, before: &Session, entry: &Entry) {
    let mut session = before.clone();
    let (mut out, mut outside) = (vec![0; ANSWER_WORDS], vec![0; OUTSIDE_WORDS]);
    let (mut entered, mut previewed) = (Vec::with_capacity(count), Vec::with_capacity(count));
    for _ in 0..count {
        session.copy_from(before);
        timed(&mut previewed, (Instant::now(), black_box(&session).preview(black_box(entry), &mut out)));
        session.copy_from(before);
        timed(&mut entered, (Instant::now(), black_box(&mut session).enter(black_box(entry), &mut out)));
    }
    print(&format!("{id} enter"), entered);
    print(&format!("{id} preview"), previewed);
    session.copy_from(before);
    time(&format!("{id} check"), count, || (Instant::now(), black_box(&session).check()));
    time(&format!("{id} outside"), count, || (Instant::now(), black_box(&session).outside(&mut outside)));
}

fn print_session(id: &str, before: &Session, entry: &Entry) {
    let number = before.clone().enter(entry, &mut vec![0; ANSWER_WORDS]);
    println!("{id}: {:?}, refused by {number}", &before.words[..8]);
}

fn run_in_stack(size: usize, before: &Session, entry: &Entry) {
    let (mut session, mut out) = (before.clone(), vec![0; ANSWER_WORDS]);
    std::thread::scope(|scope| {
        let thread = std::thread::Builder::new().stack_size(size);
        let run = thread.spawn_scoped(scope, || session.preview(entry, &mut out) + session.enter(entry, &mut out)).unwrap();
        run.join().unwrap();
    });
}

fn main() {
    let args: Vec<String> = std::env::args().skip(1).collect();
    let args: Vec<&str> = args.iter().map(|arg| arg.as_str()).collect();
    match args[..] {
        ["--sessions", file] => each_timed(file, print_session),
        ["--stack", size, wanted, file] => each_timed(file, |id, before, entry| {
            if id == wanted {
                run_in_stack(size.parse().unwrap(), before, entry);
            }
        }),
        [count, file] => each_timed(file, |id, before, entry| time_all(count.parse().unwrap(), id, before, entry)),
        _ => panic!("the ways to call it stand at the head of session_driver.rs"),
    }
}
