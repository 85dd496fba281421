//! order COUNT: times `order_units` through the static library of the Rattle crates, beside a plain Rust routine of the same that asks nothing of
//! questions 1 to 4: counts of imports that have not started, lists of importers and a heap of those ready; Tarjan's numbering for circles.
//! Prints a line for each shape of a sheet: what it is, its units and imports, then the medians in nanoseconds of `order_units`, of questions 1 to 4
//! in it, and of the plain routine. Both must answer alike on each shape and on 20,000 random sheets.
use std::cmp::Reverse;
use std::collections::BinaryHeap;
use std::hint::black_box;
use std::time::Instant;

// A slice is passed as a pointer and a length.
extern "C" {
    fn bench_order(sheet: *const u32, words: usize, names: *const u8, bytes: usize, list: *mut u32, lent: usize) -> u32;
    fn bench_position(sheet: *const u32, words: usize, names: *const u8, bytes: usize, list: *mut u32, lent: usize) -> u64;
    fn bench_first_four(sheet: *const u32, words: usize, names: *const u8, bytes: usize) -> u32;
}

const NAMES: &[u8] = b"";

fn order(sheet: &[u32], list: &mut [u32]) -> u32 {
    unsafe { bench_order(sheet.as_ptr(), sheet.len(), NAMES.as_ptr(), NAMES.len(), list.as_mut_ptr(), list.len()) }
}

fn position(sheet: &[u32], list: &mut [u32]) -> u64 {
    unsafe { bench_position(sheet.as_ptr(), sheet.len(), NAMES.as_ptr(), NAMES.len(), list.as_mut_ptr(), list.len()) }
}

fn first_four(sheet: &[u32]) -> u32 {
    unsafe { bench_first_four(sheet.as_ptr(), sheet.len(), NAMES.as_ptr(), NAMES.len()) }
}

/// The number of a refusal, or 0, and the unit of question 29, or 0.
#[inline(never)]
fn plain(sheet: &[u32], list: &mut [u32]) -> (u32, u32) {
    let rows = sheet.len() / 8;
    let mut imports: Vec<Vec<u32>> = vec![Vec::new(); rows];
    let mut importers: Vec<Vec<u32>> = vec![Vec::new(); rows];
    let mut waiting = vec![0u32; rows];
    let mut units = Vec::new();
    for u in (0..rows).filter(|&u| sheet[8 * u] == 2) {
        units.push(u as u32);
        let mut k = sheet[8 * u + 2] as usize;
        while k != 0 {
            if sheet[8 * k] == 3 {
                let v = sheet[8 * k + 6];
                imports[u].push(v);
                importers[v as usize].push(u as u32);
                waiting[u] += 1;
            }
            k = sheet[8 * k + 1] as usize;
        }
    }
    let mut ready: BinaryHeap<Reverse<u32>> = units.iter().filter(|&&u| waiting[u as usize] == 0).map(|&u| Reverse(u)).collect();
    let mut order = Vec::with_capacity(units.len());
    while let Some(Reverse(u)) = ready.pop() {
        order.push(u);
        for &w in &importers[u as usize] {
            waiting[w as usize] -= 1;
            if waiting[w as usize] == 0 {
                ready.push(Reverse(w));
            }
        }
    }
    list.fill(0);
    if order.len() < units.len() {
        return (29, lowest_circling(&imports, &units));
    }
    if list.len() < order.len() {
        return (22, 0);
    }
    list[..order.len()].copy_from_slice(&order);
    (0, 0)
}

/// The lowest unit on a circle, by Tarjan's numbering with a stack of its own.
fn lowest_circling(imports: &[Vec<u32>], units: &[u32]) -> u32 {
    let mut number = vec![0u32; imports.len()];
    let mut low = vec![0u32; imports.len()];
    let mut open = vec![false; imports.len()];
    let mut trail: Vec<u32> = Vec::new();
    let mut calls: Vec<(u32, usize)> = Vec::new();
    let (mut count, mut lowest) = (0, u32::MAX);
    for &root in units {
        if number[root as usize] != 0 {
            continue;
        }
        calls.push((root, 0));
        while let Some((u, i)) = calls.pop() {
            let at = u as usize;
            if i == 0 {
                count += 1;
                number[at] = count;
                low[at] = count;
                open[at] = true;
                trail.push(u);
            } else {
                let v = imports[at][i - 1] as usize;
                low[at] = low[at].min(low[v]);
            }
            let mut next = i;
            let mut entered = false;
            while next < imports[at].len() {
                let v = imports[at][next] as usize;
                next += 1;
                if number[v] == 0 {
                    calls.push((u, next));
                    calls.push((v as u32, 0));
                    entered = true;
                    break;
                } else if open[v] {
                    low[at] = low[at].min(number[v]);
                }
            }
            if entered || low[at] != number[at] {
                continue;
            }
            let start = trail.iter().rposition(|&v| v == u).unwrap();
            let circling = trail.len() - start > 1 || imports[at].contains(&u);
            for v in trail.drain(start..) {
                open[v as usize] = false;
                if circling {
                    lowest = lowest.min(v);
                }
            }
        }
    }
    lowest
}

/// A sheet of units with what each imports: the unit's row, its import rows, its function and its body. The line of a row is its number.
fn sheet(lists: &[Vec<usize>]) -> Vec<u32> {
    let mut rows: Vec<u32> = Vec::new();
    let mut starts = Vec::new();
    let mut next = 1;
    for list in lists {
        starts.push(next as u32);
        next += 3 + list.len();
    }
    let mut add = |kind: u32, next: u32, child: u32, a: u32, b: u32| {
        let line = (rows.len() / 8) as u32;
        rows.extend([kind, next, child, 0, line, 1, a, b]);
    };
    add(0, 0, *starts.first().unwrap_or(&0), 0, 0);
    for (i, list) in lists.iter().enumerate() {
        let row = starts[i];
        add(2, *starts.get(i + 1).unwrap_or(&0), row + 1, 0, 0);
        for (j, &v) in list.iter().enumerate() {
            add(3, row + 2 + j as u32, 0, starts[v], 0);
        }
        let function = row + 1 + list.len() as u32;
        add(6, 0, function + 1, 0, 1);
        add(25, 0, 0, 0, 0);
    }
    rows
}

fn same(what: &str, words: &[u32], lent: usize) {
    let mut ours = vec![7u32; lent];
    let mut theirs = vec![9u32; lent];
    let number = order(words, &mut ours);
    let (expected, unit) = plain(words, &mut theirs);
    assert_eq!(number, expected, "{what}");
    assert_eq!(ours, theirs, "{what}");
    let place = position(words, &mut ours);
    let there = if unit == 0 { 0 } else { ((words[8 * unit as usize + 4] as u64) << 14) + 1 };
    assert_eq!(place, there, "{what}");
}

fn shapes() -> Vec<(&'static str, Vec<Vec<usize>>)> {
    let all = |n: usize, f: &dyn Fn(usize) -> Vec<usize>| (0..n).map(f).collect::<Vec<_>>();
    vec![
        ("no_imports", all(682, &|_| vec![])),
        ("line_up", all(511, &|i| if i < 510 { vec![i + 1] } else { vec![] })),
        ("line_down", all(511, &|i| if i > 0 { vec![i - 1] } else { vec![] })),
        ("all_import_the_first", all(511, &|i| if i > 0 { vec![0] } else { vec![] })),
        ("all_import_the_last", all(511, &|i| if i < 510 { vec![510] } else { vec![] })),
        ("first_imports_all", all(511, &|i| if i == 0 { (1..511).collect() } else { vec![] })),
        ("web_up", all(61, &|i| (i + 1..61).collect())),
        ("web_up_last_first", all(61, &|i| (i + 1..61).rev().collect())),
        ("web_down", all(61, &|i| (0..i).collect())),
        ("pairs_from_both_ends", all(511, &|i| if i < 255 { vec![i + 256] } else { vec![] })),
        ("circle_of_all", all(511, &|i| vec![(i + 1) % 511])),
        ("line_into_a_circle", all(511, &|i| vec![if i < 510 { i + 1 } else { 400 }])),
        ("line_between_circles", all(508, &|i| match i {
            506 => vec![507, 0],
            507 => vec![506],
            504 => vec![505],
            505 => vec![504],
            _ => vec![i + 1],
        })),
    ]
}

fn random(state: &mut u64, below: usize) -> usize {
    *state = state.wrapping_mul(6364136223846793005).wrapping_add(1442695040888963407);
    ((*state >> 33) as usize) % below
}

fn median(mut times: Vec<u64>) -> u64 {
    times.sort();
    times[times.len() / 2]
}

fn main() {
    let count: usize = std::env::args().nth(1).unwrap().parse().unwrap();
    let mut state = 1;
    for i in 0..20000 {
        let n = 1 + random(&mut state, 12);
        let most = 1 + random(&mut state, 3);
        let lists: Vec<Vec<usize>> = (0..n)
            .map(|u| {
                (0..random(&mut state, most + 1))
                    .map(|_| if i % 3 == 0 { random(&mut state, n) } else { (u + 1 + random(&mut state, n)).min(n - 1) })
                    .filter(|&v| i % 3 == 0 || v != u)
                    .collect()
            })
            .collect();
        same("random", &sheet(&lists), random(&mut state, 16));
    }
    for (what, lists) in shapes() {
        let words = sheet(&lists);
        assert_eq!(first_four(&words), 0, "{what}");
        same(what, &words, 2048);
        let mut list = vec![0u32; 2048];
        let mut times = [(); 3].map(|_| Vec::with_capacity(count));
        for _ in 0..count {
            let start = Instant::now();
            black_box(order(black_box(&words), black_box(&mut list)));
            times[0].push(start.elapsed().as_nanos() as u64);
            let start = Instant::now();
            black_box(first_four(black_box(&words)));
            times[1].push(start.elapsed().as_nanos() as u64);
            let start = Instant::now();
            black_box(plain(black_box(&words), black_box(&mut list)));
            times[2].push(start.elapsed().as_nanos() as u64);
        }
        let imports: usize = lists.iter().map(Vec::len).sum();
        let [ours, four, theirs] = times.map(median);
        println!("{what} {} {imports} {ours} {four} {theirs}", lists.len());
    }
}
