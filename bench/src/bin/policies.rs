//! The proved splits beside the same in plain Rust: the same test, the same passes, 64-bit products.
//! The two are compared on random levels first. Then each is timed in turn, and the best round of each counts.

use std::hint::black_box;
use std::time::Instant;

unsafe extern "C" {
    fn lezdamir_fifo(quantity: u32, lots: *const u32, count: usize, fills: *mut u32, room: usize) -> u32;
    fn lezdamir_pro_rata(quantity: u32, lots: *const u32, count: usize, fills: *mut u32, room: usize) -> u32;
}

type Split = fn(u32, &[u32], &mut [u32]) -> u32;

#[inline(never)]
fn proved_fifo(quantity: u32, lots: &[u32], fills: &mut [u32]) -> u32 {
    // SAFETY: both pointers and lengths come from live slices, and the callee keeps none of them.
    unsafe { lezdamir_fifo(quantity, lots.as_ptr(), lots.len(), fills.as_mut_ptr(), fills.len()) }
}

#[inline(never)]
fn proved_pro_rata(quantity: u32, lots: &[u32], fills: &mut [u32]) -> u32 {
    // SAFETY: as above.
    unsafe { lezdamir_pro_rata(quantity, lots.as_ptr(), lots.len(), fills.as_mut_ptr(), fills.len()) }
}

const MOST_LOTS: u32 = 999_999;
const MOST_ORDERS: usize = 1_024;

fn test(quantity: u32, lots: &[u32], room: usize) -> Result<(), u32> {
    let tradable = |lots: u32| (1..=MOST_LOTS).contains(&lots);
    if lots.len() != room {
        return Err(51);
    }
    // no early exit, so that the loop runs in vectors
    if lots.len() > MOST_ORDERS || !tradable(quantity) || !lots.iter().fold(true, |all, &order| all & tradable(order)) {
        return Err(52);
    }
    Ok(())
}

#[inline(never)]
fn plain_fifo(quantity: u32, lots: &[u32], fills: &mut [u32]) -> u32 {
    if let Err(number) = test(quantity, lots, fills.len()) {
        return number;
    }
    let mut left = quantity;
    for (fill, &order) in fills.iter_mut().zip(lots) {
        *fill = left.min(order);
        left -= *fill;
    }
    0
}

#[inline(never)]
fn plain_pro_rata(quantity: u32, lots: &[u32], fills: &mut [u32]) -> u32 {
    if let Err(number) = test(quantity, lots, fills.len()) {
        return number;
    }
    let total: u64 = lots.iter().map(|&order| order as u64).sum();
    let trades = (quantity as u64).min(total);
    let mut left = trades;
    for (fill, &order) in fills.iter_mut().zip(lots) {
        let share = trades * order as u64 / total;
        *fill = share as u32;
        left -= share;
    }
    for (fill, &order) in fills.iter_mut().zip(lots) {
        if left == 0 {
            break;
        }
        let more = left.min((order - *fill) as u64);
        *fill += more as u32;
        left -= more;
    }
    0
}

/// xorshift64
struct Random(u64);

impl Random {
    fn next(&mut self) -> u64 {
        self.0 ^= self.0 << 13;
        self.0 ^= self.0 >> 7;
        self.0 ^= self.0 << 17;
        self.0
    }

    /// From 1 to `most`.
    fn lots(&mut self, most: u32) -> u32 {
        1 + (self.next() % most as u64) as u32
    }
}

/// One level in eight has something to refuse.
fn compare(name: &str, proved: Split, plain: Split, random: &mut Random) {
    for case in 0..20_000 {
        let count = (random.next() % 1_030) as usize;
        let most = [1, 9, 1_000, MOST_LOTS][(random.next() % 4) as usize];
        let mut quantity = random.lots(MOST_LOTS.min(most.saturating_mul(600)));
        let mut lots: Vec<u32> = (0..count).map(|_| random.lots(most)).collect();
        let mut room = count;
        match random.next() % 32 {
            0 => room += 1,
            1 => quantity = [0, MOST_LOTS + 1][(random.next() % 2) as usize],
            2 | 3 if count > 0 => lots[(random.next() % count as u64) as usize] = [0, MOST_LOTS + 1][(random.next() % 2) as usize],
            _ => {}
        }
        let mut one = vec![7; room];
        let mut other = vec![7; room];
        let numbers = (proved(quantity, &lots, &mut one), plain(quantity, &lots, &mut other));
        assert_eq!(numbers.0, numbers.1, "{name}, case {case}");
        assert_eq!(one, other, "{name}, case {case}: {quantity} over {lots:?}");
    }
}

fn round(split: Split, quantity: u32, lots: &[u32], fills: &mut [u32], calls: u32) -> f64 {
    let start = Instant::now();
    for _ in 0..calls {
        black_box(split(black_box(quantity), black_box(lots), black_box(&mut *fills)));
    }
    start.elapsed().as_nanos() as f64 / calls as f64
}

fn main() {
    let mut random = Random(0x9e37_79b9_7f4a_7c15);
    let policies: [(&str, Split, Split); 2] = [("fifo", proved_fifo, plain_fifo), ("pro-rata", proved_pro_rata, plain_pro_rata)];
    for (name, proved, plain) in policies {
        compare(name, proved, plain, &mut random);
    }
    println!("40,000 random levels: the same answers and fills");
    println!("{:>10} {:>6} {:>12} {:>12} {:>7}", "policy", "lots", "proved ns", "plain ns", "ratio");
    for (name, proved, plain) in policies {
        for count in [10, 100, 1_024] {
            let lots: Vec<u32> = (0..count).map(|_| random.lots(1_000)).collect();
            let quantity = lots.iter().sum::<u32>() / 2;
            let mut fills = vec![0; count];
            let (mut best_proved, mut best_plain) = (f64::MAX, f64::MAX);
            let calls = 200_000 / count as u32;
            for _ in 0..200 {
                best_proved = best_proved.min(round(proved, quantity, &lots, &mut fills, calls));
                best_plain = best_plain.min(round(plain, quantity, &lots, &mut fills, calls));
            }
            println!("{name:>10} {count:>6} {best_proved:>12.1} {best_plain:>12.1} {:>7.2}", best_proved / best_plain);
        }
    }
}
