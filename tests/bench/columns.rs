//! columns COUNT: times `to_columns` and `from_columns` through the static library of the Rattle crates, each beside a plain Rust loop of
//! the same, on sheets of 300 and of 2,048 rows and targets of that size. The four are run in turn, COUNT times. Prints a line for each: what
//! it is, the rows, then the median and the least time in nanoseconds. Both ways must give the same words as the plain loops.
use std::hint::black_box;
use std::time::Instant;

// A slice is passed as a pointer and a length.
extern "C" {
    fn bench_to_columns(source: *const u32, source_words: usize, target: *mut u32, target_words: usize) -> u32;
    fn bench_from_columns(source: *const u32, source_words: usize, target: *mut u32, target_words: usize) -> u32;
}

fn to_columns(source: &[u32], target: &mut [u32]) -> u32 {
    unsafe { bench_to_columns(source.as_ptr(), source.len(), target.as_mut_ptr(), target.len()) }
}

fn from_columns(source: &[u32], target: &mut [u32]) -> u32 {
    unsafe { bench_from_columns(source.as_ptr(), source.len(), target.as_mut_ptr(), target.len()) }
}

fn first_no(source: &[u32], target: &[u32]) -> u32 {
    let rows = source.len() / 8;
    if 8 * rows != source.len() || rows < 1 || rows > 2048 {
        1
    } else if target.len() < source.len() {
        22
    } else {
        0
    }
}

#[inline(never)]
fn plain_to_columns(source: &[u32], target: &mut [u32]) -> u32 {
    let no = first_no(source, target);
    if no != 0 {
        target.fill(0);
        return no;
    }
    let rows = source.len() / 8;
    for c in 0..8 {
        for r in 0..rows {
            let word = source[8 * r + c];
            target[c * rows + r] = if c == 1 || c == 2 { word.wrapping_sub(r as u32) } else { word };
        }
    }
    target[source.len()..].fill(0);
    0
}

#[inline(never)]
fn plain_from_columns(source: &[u32], target: &mut [u32]) -> u32 {
    let no = first_no(source, target);
    if no != 0 {
        target.fill(0);
        return no;
    }
    let rows = source.len() / 8;
    for r in 0..rows {
        for c in 0..8 {
            let word = source[c * rows + r];
            target[8 * r + c] = if c == 1 || c == 2 { word.wrapping_add(r as u32) } else { word };
        }
    }
    target[source.len()..].fill(0);
    0
}

type Way = fn(&[u32], &mut [u32]) -> u32;

const WAYS: [(&str, Way); 4] = [
    ("to_columns", to_columns),
    ("plain_to_columns", plain_to_columns),
    ("from_columns", from_columns),
    ("plain_from_columns", plain_from_columns),
];

fn main() {
    let count: usize = std::env::args().nth(1).unwrap().parse().unwrap();
    for rows in [300usize, 2048] {
        let sheet: Vec<u32> = (0..8 * rows as u32).map(|i| i.wrapping_mul(2654435761)).collect();
        let mut target = vec![7u32; 8 * 2048];
        let mut plain = vec![9u32; 8 * 2048];
        for pair in WAYS.chunks(2) {
            assert_eq!(pair[0].1(&sheet, &mut target), pair[1].1(&sheet, &mut plain));
            assert_eq!(target, plain, "{}", pair[0].0);
        }
        let mut times = vec![Vec::with_capacity(count); 4];
        for _ in 0..count {
            for (times, (_, way)) in times.iter_mut().zip(WAYS) {
                let start = Instant::now();
                black_box(way(black_box(&sheet), black_box(&mut target[..8 * rows])));
                times.push(start.elapsed().as_nanos() as u64);
            }
        }
        for (mut times, (what, _)) in times.into_iter().zip(WAYS) {
            times.sort();
            println!("{what} {rows} {} {}", times[count / 2], times[0]);
        }
    }
}
