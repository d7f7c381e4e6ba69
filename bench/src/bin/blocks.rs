//! Checksums of 506 bytes, and checks and seals of whole blocks: the proved code beside plain Rust that slices by eight
//! and beside the CPU's own instruction. All in one run, in turns, the best of many rounds of each.
use std::arch::x86_64::{_mm_crc32_u8, _mm_crc32_u64};
use std::hint::black_box;
use std::time::Instant;

const ROUNDS: usize = 400;
const CALLS: u32 = 1000;
const BLOCK: usize = 512;

mod proved {
    // A slice goes as its address and its length.
    unsafe extern "C" {
        fn lezdamir_crc32c(bytes: *const u8, length: usize) -> u32;
        fn lezdamir_is_zero(bytes: *const u8, length: usize) -> bool;
        fn lezdamir_check(block: *const u8, length: usize) -> usize;
        fn lezdamir_seal(payload: *const u8, length: usize, block: *mut [u8; 512]) -> u32;
    }

    pub fn crc(bytes: &[u8]) -> u32 {
        unsafe { lezdamir_crc32c(bytes.as_ptr(), bytes.len()) }
    }

    pub fn is_zero(bytes: &[u8]) -> bool {
        unsafe { lezdamir_is_zero(bytes.as_ptr(), bytes.len()) }
    }

    pub fn check(block: &[u8]) -> usize {
        unsafe { lezdamir_check(block.as_ptr(), block.len()) }
    }

    pub fn seal(payload: &[u8], block: &mut [u8; 512]) -> bool {
        unsafe { lezdamir_seal(payload.as_ptr(), payload.len(), block) == 0 }
    }
}

const fn tables() -> [[u32; 256]; 8] {
    let mut tables = [[0; 256]; 8];
    let mut i = 0;
    while i < 256 {
        let mut c = i as u32;
        let mut bit = 0;
        while bit < 8 {
            c = (c >> 1) ^ (c & 1) * 0x82F6_3B78;
            bit += 1;
        }
        tables[0][i] = c;
        i += 1;
    }
    let mut k = 1;
    while k < 8 {
        let mut i = 0;
        while i < 256 {
            let c = tables[k - 1][i];
            tables[k][i] = (c >> 8) ^ tables[0][(c & 255) as usize];
            i += 1;
        }
        k += 1;
    }
    tables
}

static TABLES: [[u32; 256]; 8] = tables();

/// Slicing by eight, as it is commonly written.
fn sliced(bytes: &[u8]) -> u32 {
    let (words, rest) = bytes.as_chunks::<8>();
    let mut c = !0;
    for word in words {
        let x = u64::from_le_bytes(*word) ^ c as u64;
        c = TABLES[7][(x & 255) as usize]
            ^ TABLES[6][(x >> 8 & 255) as usize]
            ^ TABLES[5][(x >> 16 & 255) as usize]
            ^ TABLES[4][(x >> 24 & 255) as usize]
            ^ TABLES[3][(x >> 32 & 255) as usize]
            ^ TABLES[2][(x >> 40 & 255) as usize]
            ^ TABLES[1][(x >> 48 & 255) as usize]
            ^ TABLES[0][(x >> 56) as usize];
    }
    for byte in rest {
        c = (c >> 8) ^ TABLES[0][((c ^ *byte as u32) & 255) as usize];
    }
    !c
}

#[target_feature(enable = "sse4.2")]
fn instruction_inner(bytes: &[u8]) -> u32 {
    let (words, rest) = bytes.as_chunks::<8>();
    let mut c = u32::MAX as u64;
    for word in words {
        c = _mm_crc32_u64(c, u64::from_le_bytes(*word));
    }
    let mut c = c as u32;
    for byte in rest {
        c = _mm_crc32_u8(c, *byte);
    }
    !c
}

fn instruction(bytes: &[u8]) -> u32 {
    unsafe { instruction_inner(bytes) }
}

fn mask(c: u32) -> u32 {
    c.rotate_right(15).wrapping_add(0xA282_EAD8)
}

fn zeros(bytes: &[u8]) -> bool {
    bytes.iter().fold(0, |all, b| all | b) == 0
}

fn check(block: &[u8], crc: fn(&[u8]) -> u32) -> usize {
    if block.len() != BLOCK || block[6] != 1 {
        return 0;
    }
    let length = u16::from_le_bytes([block[4], block[5]]) as usize;
    if length == 0 || length > 505 || !zeros(&block[7 + length..]) {
        return 0;
    }
    let stored = u32::from_le_bytes([block[0], block[1], block[2], block[3]]);
    if stored == mask(crc(&block[6..7 + length])) {
        length
    } else {
        0
    }
}

fn seal(payload: &[u8], block: &mut [u8; BLOCK], crc: fn(&[u8]) -> u32) -> bool {
    let length = payload.len();
    if length == 0 || length > 505 {
        return false;
    }
    *block = [0; BLOCK];
    block[6] = 1;
    block[7..7 + length].copy_from_slice(payload);
    let stored = mask(crc(&block[6..7 + length]));
    block[0..4].copy_from_slice(&stored.to_le_bytes());
    block[4..6].copy_from_slice(&(length as u16).to_le_bytes());
    true
}

/// Takes a result so that the call that made it is not left out.
fn spent<T>(result: T) {
    black_box(result);
}

/// The least time of a call in nanoseconds, of each of some functions, timed in turns.
fn times<const N: usize>(mut calls: [&mut dyn FnMut(); N]) -> [f64; N] {
    let mut best = [f64::INFINITY; N];
    for _ in 0..ROUNDS {
        for (call, best) in calls.iter_mut().zip(&mut best) {
            let start = Instant::now();
            for _ in 0..CALLS {
                call();
            }
            *best = best.min(start.elapsed().as_secs_f64() * 1e9 / f64::from(CALLS));
        }
    }
    best
}

fn row(what: &str, [proved, plain, cpu]: [f64; 3]) {
    println!(
        "{what:<24} {proved:>8.1} {plain:>8.1} {cpu:>8.1}   {:>5.2} {:>5.2}",
        plain / proved,
        cpu / proved
    );
}

fn main() {
    let bytes: Vec<u8> = (0..506u32).map(|i| (i * 7 + 3) as u8).collect();
    println!(
        "{:<24} {:>8} {:>8} {:>8}   {:>5} {:>5}",
        "ns a call", "proved", "by eight", "CPU", "e/p", "c/p"
    );
    for length in [506, 250, 60] {
        let b = &bytes[..length];
        assert!(proved::crc(b) == sliced(b) && sliced(b) == instruction(b));
        let t = times([
            &mut || spent(proved::crc(black_box(b))),
            &mut || spent(sliced(black_box(b))),
            &mut || spent(instruction(black_box(b))),
        ]);
        row(&format!("checksum of {length}"), t);
    }
    for length in [505, 249, 59] {
        let payload = &bytes[..length];
        let mut blocks = [[0xAA; BLOCK]; 3];
        let [a, b, c] = &mut blocks;
        assert!(
            proved::seal(payload, a)
                && seal(payload, b, sliced)
                && seal(payload, c, instruction)
                && a == b
                && b == c
        );
        let t = times([
            &mut || spent(proved::seal(black_box(payload), a)),
            &mut || spent(seal(black_box(payload), b, sliced)),
            &mut || spent(seal(black_box(payload), c, instruction)),
        ]);
        row(&format!("seal of {length}"), t);
        let block = &blocks[0];
        assert!(proved::check(block) == length && check(block, sliced) == length);
        let t = times([
            &mut || spent(proved::check(black_box(block))),
            &mut || spent(check(black_box(block), sliced)),
            &mut || spent(check(black_box(block), instruction)),
        ]);
        row(&format!("check of {length}"), t);
    }
    let none = [0; BLOCK];
    assert!(proved::is_zero(&none) && zeros(&none));
    let [proved, plain] = times([
        &mut || spent(proved::is_zero(black_box(&none))),
        &mut || spent(zeros(black_box(&none))),
    ]);
    println!(
        "{:<24} {proved:>8.1} {plain:>8.1} {:>8}   {:>5.2}",
        "zero test of 512",
        "",
        plain / proved
    );
}
