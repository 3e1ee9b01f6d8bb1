//! Times all detours of a floor of 8 by 8 cells, by the proved library and by plain Rust, and compares what they answer.

mod plain;

use plain::{Charge, Floor, detour};
use std::hint::black_box;
use std::time::{Duration, Instant};

const ROUNDS: usize = 100;

unsafe extern "C" {
    // crates/bench_detours: a slice is a pointer and a length, and the allocator takes no bytes
    fn bench_detours(width: u8, height: u8, blocked: u64, prices: *const u16, count: usize) -> u64;
}

fn proved(blocked: u64, prices: &[u16]) -> u64 {
    // SAFETY: the function asks nothing of its numbers, and reads the slice only while it runs.
    unsafe { bench_detours(8, 8, blocked, prices.as_ptr(), prices.len()) }
}

fn mixed(digest: u64, number: u64) -> u64 {
    digest.wrapping_mul(31).wrapping_add(number)
}

fn in_plain_rust(blocked: u64, prices: &[u16]) -> u64 {
    let floor = Floor { width: 8, height: 8, blocked, prices: prices.to_vec(), points: Vec::new(), sampling: 0 };
    let mut table = [0; 64];
    let mut all = 0;
    for from in 0..64 {
        for to in 0..64 {
            if let Some(path) = detour::<Floor, Charge>(&floor, 0, from, to, &mut table) {
                all = mixed(all, u64::from(path.total()));
                for action in path.actions() {
                    all = mixed(all, u64::from(*action));
                }
            }
        }
    }
    all
}

// Prices from 0 to 65,535 of all sizes, from one number.
fn prices(mut seed: u64) -> Vec<u16> {
    (0..64)
        .map(|_| {
            seed = seed.wrapping_mul(6364136223846793005).wrapping_add(1442695040888963407);
            (seed >> 48) as u16 >> (seed >> 44 & 15)
        })
        .collect()
}

fn timed(search: fn(u64, &[u16]) -> u64, prices: &[u16]) -> Duration {
    let start = Instant::now();
    black_box(search(0, black_box(prices)));
    start.elapsed()
}

fn main() {
    for seed in 0..100 {
        // every other floor has blocked cells, but never the robot's
        let blocked = if seed % 2 == 0 { 0 } else { prices(seed).iter().fold(0, |all, price| all << 1 | u64::from(price & 3 == 0)) & !1 };
        let list = prices(seed + 1000);
        assert_eq!(proved(blocked, &list), in_plain_rust(blocked, &list), "floor {seed}");
    }
    println!("100 floors: the same totals and actions");

    let list = prices(7);
    let mut best = [Duration::MAX; 2];
    for _ in 0..ROUNDS {
        best[0] = best[0].min(timed(proved, &list));
        best[1] = best[1].min(timed(in_plain_rust, &list));
    }
    let each = best.map(|time| time.as_secs_f64() * 1e6 / 4096.0);
    println!("one detour, of 4096 on an open floor of 8 by 8 cells, best of {ROUNDS} rounds:");
    println!("  proved      {:.2} us", each[0]);
    println!("  plain Rust  {:.2} us", each[1]);
    println!("  ratio       {:.2}", each[0] / each[1]);
}
