//! driver COUNT SHEET NAMES [LENT NUMBER]: times the resolver from words to words and from text to text, questions 1 to 4, and the reading of the sheet's
//! text, through the static library of the Rattle crates. Prints a line for each measurement: what it is, then the median and the least time in nanoseconds.
//! LENT answer rows are lent (2,048), and the answer must have NUMBER (0). From text to text 2,048 are lent always: with another LENT this is not timed.
//! driver --resolve COUNT SHEET NAMES LENT NUMBER: the first of these measurements alone.
//! driver --stack BYTES SHEET NAMES [LENT NUMBER]: runs the resolver once from words to words, in a thread with a stack of that size.
use std::hint::black_box;
use std::time::Instant;

// A slice is passed as a pointer and a length.
extern "C" {
    fn bench_first_four(words: *const u32, word_count: usize, names: *const u8, name_bytes: usize) -> u32;
    fn bench_resolve(words: *const u32, word_count: usize, names: *const u8, name_bytes: usize, out: *mut u32, out_words: usize) -> u32;
    fn bench_read_sheet(sheet: *const u8, sheet_bytes: usize, words: *mut u32, word_count: usize) -> usize;
    fn bench_resolve_text(sheet: *const u8, sheet_bytes: usize, names: *const u8, name_bytes: usize, text: *mut u8, text_bytes: usize) -> usize;
}

// What the program lends: 2,048 answer rows, and the text of them and of the line before them.
const ANSWER_ROWS: usize = 2048;
const ANSWER_BYTES: usize = 81 * (ANSWER_ROWS + 1);
// A sheet's words, and no more.
const SHEET_WORDS: usize = 8 * 2048;

fn resolve(words: &[u32], names: &[u8], out: &mut [u32]) -> u32 {
    unsafe { bench_resolve(words.as_ptr(), words.len(), names.as_ptr(), names.len(), out.as_mut_ptr(), out.len()) }
}

fn resolve_text(sheet: &[u8], names: &[u8], text: &mut [u8]) -> u32 {
    unsafe { bench_resolve_text(sheet.as_ptr(), sheet.len(), names.as_ptr(), names.len(), text.as_mut_ptr(), text.len()) as u32 }
}

fn read_sheet(sheet: &[u8], words: &mut [u32]) -> u32 {
    unsafe { bench_read_sheet(sheet.as_ptr(), sheet.len(), words.as_mut_ptr(), words.len()) as u32 }
}

fn first_four(words: &[u32], names: &[u8]) -> u32 {
    unsafe { bench_first_four(words.as_ptr(), words.len(), names.as_ptr(), names.len()) }
}

fn words_of(text: &str) -> Vec<u32> {
    let numbers = text.lines().flat_map(|line| (0..8).map(|i| line[10 * i..10 * i + 10].trim()));
    numbers.map(|number| number.parse().unwrap()).collect()
}

fn time(what: &str, count: usize, mut once: impl FnMut() -> u32, expected: u32) {
    let mut times = Vec::with_capacity(count);
    for _ in 0..count {
        let start = Instant::now();
        let answer = black_box(once());
        times.push(start.elapsed().as_nanos() as u64);
        assert_eq!(answer, expected, "{what}");
    }
    times.sort();
    println!("{what} {} {}", times[count / 2], times[0]);
}

fn time_resolve(count: usize, words: &[u32], names: &[u8], lent: usize, number: u32) {
    let mut out = vec![0u32; 8 * lent];
    time("resolve", count, || resolve(black_box(words), black_box(names), &mut out), number);
}

fn time_all(count: usize, text: &str, names: &[u8], lent: usize, number: u32) {
    let words = words_of(text);
    time_resolve(count, &words, names, lent, number);
    if lent == ANSWER_ROWS {
        let mut printed = vec![0u8; ANSWER_BYTES];
        let bytes = resolve_text(text.as_bytes(), names, &mut printed);
        time("resolve_text", count, || resolve_text(black_box(text.as_bytes()), black_box(names), &mut printed), bytes);
    }
    let mut read = vec![0u32; SHEET_WORDS];
    time("read_sheet", count, || read_sheet(black_box(text.as_bytes()), &mut read), (words.len() / 8) as u32);
    time("first_four", count, || first_four(black_box(&words), black_box(names)), 0);
}

fn run_in_stack(bytes: usize, text: &str, names: &[u8], lent: usize, number: u32) {
    let words = words_of(text);
    let mut out = vec![0u32; 8 * lent];
    std::thread::scope(|scope| {
        let thread = std::thread::Builder::new().stack_size(bytes);
        let run = thread.spawn_scoped(scope, || assert_eq!(resolve(&words, names, &mut out), number)).unwrap();
        run.join().unwrap();
    });
}

fn main() {
    let args: Vec<String> = std::env::args().skip(1).collect();
    let args: Vec<&str> = args.iter().map(|arg| arg.as_str()).collect();
    let text = |path| std::fs::read_to_string(path).unwrap();
    let bytes = |path| std::fs::read(path).unwrap();
    let size = |number: &str| number.parse::<usize>().unwrap();
    match args[..] {
        ["--stack", stack, sheet, names] => run_in_stack(size(stack), &text(sheet), &bytes(names), ANSWER_ROWS, 0),
        ["--stack", stack, sheet, names, lent, number] => run_in_stack(size(stack), &text(sheet), &bytes(names), size(lent), size(number) as u32),
        ["--resolve", count, sheet, names, lent, number] => time_resolve(size(count), &words_of(&text(sheet)), &bytes(names), size(lent), size(number) as u32),
        [count, sheet, names] => time_all(size(count), &text(sheet), &bytes(names), ANSWER_ROWS, 0),
        [count, sheet, names, lent, number] => time_all(size(count), &text(sheet), &bytes(names), size(lent), size(number) as u32),
        _ => panic!("the ways to call it stand at the head of driver.rs"),
    }
}
