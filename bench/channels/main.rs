//! Times the proved channels and plain ones over `VecDeque` in the same rounds, in one run.
//!
//! Some items wait; then each round puts a few items and takes as many. How many is known only as it runs, or a compiler
//! would see that what a stack takes is what was just put, and leave the stack out. The samples of the two alternate, and the best of each counts.
use std::collections::VecDeque;
use std::hint::black_box;
use std::time::Instant;

unsafe extern "C" {
    fn bench_queue(burst: u32, rounds: u32) -> u64;
    fn bench_stack(burst: u32, rounds: u32) -> u64;
    fn bench_picked(burst: u32, rounds: u32) -> u64;
}

const CAPACITY: usize = 1024;
const BURST: u32 = 8;
const ROUNDS: u32 = 50_000;
const SAMPLES: u32 = 60;

/// A plain channel: a put is refused where as many wait as there is room for.
fn put(items: &mut VecDeque<u32>, parts: u32) -> Option<()> {
    if items.len() >= CAPACITY {
        return None;
    }
    items.push_back(parts);
    Some(())
}

/// The sum of the items taken; none where the channel refused.
#[inline(always)]
fn rounds(waiting: u32, burst: u32, rounds: u32, take: impl Fn(&mut VecDeque<u32>, u16) -> Option<u32>) -> Option<u64> {
    let mut items = VecDeque::with_capacity(CAPACITY);
    for parts in 0..waiting {
        put(&mut items, parts)?;
    }
    let mut sum: u64 = 0;
    for round in 0..rounds {
        for k in 0..burst {
            put(&mut items, round.wrapping_add(k))?;
        }
        for k in 0..burst {
            let parts = take(&mut items, (round.wrapping_add(k) as u16).wrapping_mul(7))?;
            sum = sum.wrapping_add(u64::from(parts));
        }
    }
    Some(sum)
}

#[inline(never)]
fn plain_queue(burst: u32, n: u32) -> u64 {
    rounds(512, burst, n, |items, _| items.pop_front()).unwrap_or(0)
}

#[inline(never)]
fn plain_stack(burst: u32, n: u32) -> u64 {
    rounds(512, burst, n, |items, _| items.pop_back()).unwrap_or(0)
}

#[inline(never)]
fn plain_picked(burst: u32, n: u32) -> u64 {
    rounds(64, burst, n, |items, pick| {
        if items.is_empty() {
            return None;
        }
        items.remove(usize::from(pick) % items.len())
    })
    .unwrap_or(0)
}

fn proved_queue(burst: u32, n: u32) -> u64 {
    unsafe { bench_queue(burst, n) }
}

fn proved_stack(burst: u32, n: u32) -> u64 {
    unsafe { bench_stack(burst, n) }
}

fn proved_picked(burst: u32, n: u32) -> u64 {
    unsafe { bench_picked(burst, n) }
}

/// The sum of what so many rounds take, each with a burst of so many items.
type Run = fn(u32, u32) -> u64;

/// The time of one put and take, in nanoseconds.
fn sample(run: Run) -> f64 {
    let start = Instant::now();
    black_box(run(black_box(BURST), black_box(ROUNDS)));
    start.elapsed().as_secs_f64() * 1e9 / f64::from(BURST * ROUNDS)
}

fn main() {
    let sorts: [(&str, Run, Run); 3] =
        [("queue", proved_queue, plain_queue), ("stack", proved_stack, plain_stack), ("picked", proved_picked, plain_picked)];
    for (sort, proved, plain) in sorts {
        for (burst, n) in [(0, 3), (1, 1), (1, 70_000), (512, 3), (961, 1), (BURST, ROUNDS)] {
            assert_eq!(proved(burst, n), plain(burst, n), "both channels give the same items: {sort}, {n} rounds of {burst}");
        }
        assert_ne!(proved(BURST, ROUNDS), 0, "no channel refused: {sort}");
        let (mut ours, mut theirs) = (f64::MAX, f64::MAX);
        for _ in 0..SAMPLES {
            ours = ours.min(sample(proved));
            theirs = theirs.min(sample(plain));
        }
        println!("{sort}: put and take, proved {ours:.2} ns, plain {theirs:.2} ns, ratio {:.2}", ours / theirs);
    }
}
