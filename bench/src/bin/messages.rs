//! The proved reader and writer of messages beside the second implementation, in one run.
//! The two are first compared on random messages, right and damaged; then each is timed in turn, and the best round counts.

use peer::messages::{parse, render, Command, NewOrder, Refusal, Side};
use std::hint::black_box;
use std::time::Instant;

unsafe extern "C" {
    fn lezdamir_refusal(bytes: *const u8, count: usize) -> u32;
    fn lezdamir_place(bytes: *const u8, count: usize) -> usize;
    fn lezdamir_read(bytes: *const u8, count: usize) -> u64;
    fn lezdamir_write(member: u32, number: u32, order: u32, buys: bool, lots: u32, price: u32, out: *mut u8, room: usize) -> usize;
}

fn refusal(bytes: &[u8]) -> (u32, usize) {
    // SAFETY: pointer and length come from a live slice, and the callees keep neither.
    unsafe { (lezdamir_refusal(bytes.as_ptr(), bytes.len()), lezdamir_place(bytes.as_ptr(), bytes.len())) }
}

#[inline(never)]
fn proved_read(bytes: &[u8]) -> u64 {
    // SAFETY: as above.
    unsafe { lezdamir_read(bytes.as_ptr(), bytes.len()) }
}

#[inline(never)]
fn proved_write(o: &NewOrder, out: &mut [u8]) -> usize {
    let buys = o.side == Side::Buy;
    // SAFETY: as above.
    unsafe { lezdamir_write(o.member, o.number, o.order, buys, o.lots, o.price, out.as_mut_ptr(), out.len()) }
}

/// The kind's letter and all figures, added up.
fn digest(command: &Command) -> u64 {
    let add = |figures: &[u32]| figures.iter().map(|&n| u64::from(n)).sum::<u64>();
    match command {
        Command::New(o) => {
            let side = if o.side == Side::Buy { 1 } else { 2 };
            u64::from(b'D') + add(&[o.member, o.number, o.order, side, o.lots, o.price])
        }
        Command::Cancel(o) => u64::from(b'F') + add(&[o.member, o.number, o.order]),
    }
}

#[inline(never)]
fn peer_read(bytes: &[u8]) -> u64 {
    parse(bytes).map_or(0, |command| digest(&command))
}

#[inline(never)]
fn peer_write(o: &NewOrder, out: &mut [u8]) -> usize {
    let text = render(&Command::New(*o));
    out[..text.len()].copy_from_slice(&text);
    text.len()
}

/// A small generator of numbers, the same in every run.
struct Random(u64);

impl Random {
    fn below(&mut self, n: u32) -> u32 {
        self.0 = self.0.wrapping_mul(6_364_136_223_846_793_005).wrapping_add(1_442_695_040_888_963_407);
        ((self.0 >> 33) % u64::from(n)) as u32
    }

    fn order(&mut self) -> NewOrder {
        NewOrder {
            member: 1 + self.below(9_999),
            number: 1 + self.below(999_999_999),
            order: 1 + self.below(999_999_999),
            side: if self.below(2) == 0 { Side::Buy } else { Side::Sell },
            lots: 1 + self.below(999_999),
            price: 1 + self.below(999_999),
        }
    }
}

fn compare_reads(bytes: &[u8]) {
    let expected = match parse(bytes) {
        Ok(_) => (0, 0),
        Err(Refusal::Field { place }) => (11, place),
        Err(Refusal::Count) => (12, 0),
        Err(Refusal::Sum) => (13, 0),
    };
    assert_eq!(refusal(bytes), expected, "{}", String::from_utf8_lossy(bytes));
    assert_eq!(proved_read(bytes), peer_read(bytes));
}

/// Right messages, and each with one byte changed, taken out or put in.
fn compare(rounds: usize) {
    let mut random = Random(1);
    let mut out = [0xEE; 128];
    for _ in 0..rounds {
        let o = random.order();
        let text = render(&Command::New(o));
        out.fill(0xEE);
        assert_eq!(proved_write(&o, &mut out), text.len());
        assert_eq!(&out[..text.len()], &text[..]);
        assert!(out[text.len()..].iter().all(|&b| b == 0xEE));
        assert_eq!(proved_write(&o, &mut out[..text.len() - 1]), 0);
        compare_reads(&text);
        let place = random.below(text.len() as u32) as usize;
        let byte = b"0123456789=\x01DF.x"[random.below(16) as usize];
        let mut changed = text.clone();
        changed[place] = byte;
        compare_reads(&changed);
        changed.remove(place);
        compare_reads(&changed);
        changed.insert(place, byte);
        changed.insert(place, byte);
        compare_reads(&changed);
    }
    println!("compared {rounds} messages and {} damaged ones: no difference", 3 * rounds);
}

fn nanoseconds(calls: u32, mut call: impl FnMut()) -> f64 {
    let start = Instant::now();
    for _ in 0..calls {
        call();
    }
    start.elapsed().as_nanos() as f64 / f64::from(calls)
}

fn report(what: &str, mut proved: impl FnMut(), mut peer: impl FnMut()) {
    let (mut best, mut other) = (f64::MAX, f64::MAX);
    for _ in 0..200 {
        best = best.min(nanoseconds(2_000, &mut proved));
        other = other.min(nanoseconds(2_000, &mut peer));
    }
    println!("{what:<28} {best:>7.1} ns   peer {other:>7.1} ns   ratio {:.2}", best / other);
}

/// What the time of a read goes into: the time until a message that is cut off after each field is refused, and that of the whole.
fn by_field(text: &[u8]) {
    print!("read up to the end of field");
    for end in (0..text.len()).filter(|&i| text[i] == 1) {
        let start = text[..end].iter().rposition(|&b| b == 1).map_or(0, |i| i + 1);
        let tag = text[start..].split(|&b| b == b'=').next().unwrap_or(&[]);
        let best = (0..100).map(|_| nanoseconds(2_000, || { black_box(proved_read(black_box(&text[..=end]))); })).fold(f64::MAX, f64::min);
        print!("  {} {best:.0}", String::from_utf8_lossy(tag));
    }
    println!(" ns");
}

fn main() {
    compare(100_000);
    let example = NewOrder { member: 7, number: 1, order: 1, side: Side::Sell, lots: 10, price: 1000 };
    let longest = NewOrder { member: 9_999, number: 999_999_999, order: 999_999_999, side: Side::Buy, lots: 999_999, price: 999_999 };
    for (name, o) in [("61 bytes", example), ("86 bytes", longest)] {
        let text = render(&Command::New(o));
        let mut out = [0; 128];
        let mut other = [0; 128];
        by_field(&text);
        report(&format!("read a message of {name}"), || { black_box(proved_read(black_box(&text))); }, || { black_box(peer_read(black_box(&text))); });
        report(&format!("write a message of {name}"), || { black_box(proved_write(black_box(&o), &mut out)); }, || { black_box(peer_write(black_box(&o), &mut other)); });
    }
}
