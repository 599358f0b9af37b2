//! Times Gorqymel beside the Rust original, in one process and on the same buffers, and prints a table.
//!
//! `run.sh` puts the original's `portable.rs` beside this file and links Gorqymel's static libraries.

#[allow(dead_code, unexpected_cfgs)]
mod portable;

use std::hint::black_box;
use std::time::Instant;

unsafe extern "C" {
    fn gorqymel_transpose(input: *const u8, input_len: usize, output: *mut u8, output_len: usize, width: usize, height: usize) -> u32;
    fn timing_transpose_u32(input: *const u32, input_len: usize, output: *mut u32, output_len: usize, width: usize, height: usize) -> bool;
}

/// An element type, with its two transpositions. Each costs one call that is not inlined: ours is in the static library.
trait Element: Copy + PartialEq + Send + Sync + 'static {
    const BYTES: usize;
    fn at(i: usize) -> Self;
    fn ours(input: &[Self], output: &mut [Self], width: usize, height: usize);
    fn original(input: &[Self], output: &mut [Self], width: usize, height: usize);
}

impl Element for u8 {
    const BYTES: usize = 1;

    fn at(i: usize) -> u8 {
        (i.wrapping_mul(2654435761) >> 7) as u8
    }

    #[inline(always)]
    fn ours(input: &[u8], output: &mut [u8], width: usize, height: usize) {
        let status = unsafe { gorqymel_transpose(input.as_ptr(), input.len(), output.as_mut_ptr(), output.len(), width, height) };
        assert_eq!(status, 0);
    }

    #[inline(never)]
    fn original(input: &[u8], output: &mut [u8], width: usize, height: usize) {
        portable::transpose(input, output, width, height);
    }
}

impl Element for u32 {
    const BYTES: usize = 4;

    fn at(i: usize) -> u32 {
        i.wrapping_mul(2654435761) as u32
    }

    #[inline(always)]
    fn ours(input: &[u32], output: &mut [u32], width: usize, height: usize) {
        let accepted = unsafe { timing_transpose_u32(input.as_ptr(), input.len(), output.as_mut_ptr(), output.len(), width, height) };
        assert!(accepted);
    }

    #[inline(never)]
    fn original(input: &[u32], output: &mut [u32], width: usize, height: usize) {
        portable::transpose(input, output, width, height);
    }
}

fn median(mut times: Vec<f64>) -> f64 {
    times.sort_by(f64::total_cmp);
    times[times.len() / 2]
}

/// Nanoseconds for one call, from `calls` calls in a row.
fn timed(calls: usize, mut call: impl FnMut()) -> f64 {
    let start = Instant::now();
    for _ in 0..calls {
        call();
    }
    start.elapsed().as_nanos() as f64 / calls as f64
}

fn row<T: Element>(width: usize, height: usize) {
    let cells = width * height;
    let input: Vec<T> = (0..cells).map(T::at).collect();
    let mut output = input.clone();
    let mut expected = input.clone();
    T::ours(&input, &mut output, width, height);
    T::original(&input, &mut expected, width, height);
    assert!(output == expected, "{width} x {height}: the results differ");
    // a round of each takes some tens of microseconds at least, so that the clock does not count
    let calls = (100_000 / cells).max(1);
    let rounds = if cells > 4_000_000 { 61 } else { 401 };
    let (mut ours, mut original) = (Vec::new(), Vec::new());
    for round in 0..rounds {
        // whoever comes second may find warmer buffers, so they take turns
        for turn in 0..2 {
            if (round + turn) % 2 == 0 {
                ours.push(timed(calls, || T::ours(black_box(&input), black_box(&mut output), width, height)));
            } else {
                original.push(timed(calls, || T::original(black_box(&input), black_box(&mut output), width, height)));
            }
        }
    }
    let (ours, original) = (median(ours), median(original));
    println!("| {width} × {height} | {} | {:.2} | {:.2} | {:.2} |", T::BYTES, ours / 1000.0, original / 1000.0, ours / original);
}

fn main() {
    println!("| width × height | bytes | ours, µs | original, µs | ratio |");
    println!("|---|---|---|---|---|");
    for (width, height) in [(1000, 1000), (1024, 1024), (1040, 1024), (4096, 4096), (8, 61), (8, 30), (46, 38)] {
        row::<u8>(width, height);
        row::<u32>(width, height);
    }
}
