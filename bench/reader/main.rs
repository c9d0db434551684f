//! Times the proved reader and the plain one on the same files, in one run.
//!
//! Both read each file many times; their samples alternate, and the best sample of each counts.
mod plain;

use std::hint::black_box;
use std::time::Instant;

unsafe extern "C" {
    // The allocator, which takes no room, comes first in the Rattle source and passes as nothing.
    fn bench_read(bytes: *const u8, len: usize) -> usize;
}

fn proved(bytes: &[u8]) -> usize {
    unsafe { bench_read(bytes.as_ptr(), bytes.len()) }
}

fn plain(bytes: &[u8]) -> usize {
    match plain::read(bytes) {
        Ok(session) => session.links.len() + session.steps.len(),
        Err(_) => 0,
    }
}

const CALLS: u32 = 200;
const SAMPLES: u32 = 60;

/// The time of one call, in microseconds.
fn sample(read: fn(&[u8]) -> usize, bytes: &[u8]) -> f64 {
    let start = Instant::now();
    for _ in 0..CALLS {
        black_box(read(black_box(bytes)));
    }
    start.elapsed().as_secs_f64() * 1e6 / f64::from(CALLS)
}

fn main() {
    for name in std::env::args().skip(1) {
        let bytes = std::fs::read(&name).expect("a file to read");
        assert_eq!(proved(&bytes), plain(&bytes), "both readers see the same lines");
        let (mut ours, mut theirs) = (f64::MAX, f64::MAX);
        for _ in 0..SAMPLES {
            ours = ours.min(sample(proved, &bytes));
            theirs = theirs.min(sample(plain, &bytes));
        }
        let file = name.rsplit('/').next().unwrap_or(&name);
        println!("{file}: {} bytes, proved {ours:.1} us, plain {theirs:.1} us, ratio {:.2}", bytes.len(), ours / theirs);
    }
}
