//! A read and a write of a block by the proved drives, beside a plain copy of 512 bytes to and from the same 16 blocks.
//! What they read is compared first. Then each is timed in turn, and the best round of each counts.

use std::hint::black_box;
use std::time::Instant;

unsafe extern "C" {
    fn lezdamir_read_block(bytes: *const u8, size: usize, at: usize, buffer: *mut u8, room: usize) -> u32;
    fn lezdamir_plain_writes(writes: usize) -> usize;
}

const BLOCK: usize = 512;
const BLOCKS: usize = 16;
const CALLS: usize = 20_000;

#[inline(never)]
fn proved_read(bytes: &[u8], at: usize, buffer: &mut [u8]) -> u32 {
    // SAFETY: both pointers and lengths come from live slices, and the callee keeps none of them.
    unsafe { lezdamir_read_block(bytes.as_ptr(), bytes.len(), at, buffer.as_mut_ptr(), buffer.len()) }
}

#[inline(never)]
fn copied(from: &[u8], to: &mut [u8]) {
    to.copy_from_slice(from);
}

fn compare(memory: &[u8]) {
    for (at, room) in (0..BLOCKS + 2).flat_map(|at| [(at, BLOCK), (at, BLOCK - 1)]) {
        let mut buffer = vec![255; room];
        let number = proved_read(memory, at, &mut buffer);
        if at >= BLOCKS {
            assert_eq!((number, buffer), (41, vec![255; room]));
        } else if room != BLOCK {
            assert_eq!((number, buffer), (42, vec![255; room]));
        } else {
            assert_eq!((number, &buffer[..]), (0, &memory[at * BLOCK..][..BLOCK]));
        }
    }
}

fn each(calls: usize, mut call: impl FnMut(usize)) -> f64 {
    let start = Instant::now();
    for i in 0..calls {
        call(i);
    }
    start.elapsed().as_nanos() as f64 / calls as f64
}

fn main() {
    let mut memory: Vec<u8> = (0..BLOCKS * BLOCK + 5).map(|i| (i * 7 % 251) as u8).collect();
    compare(&memory);
    println!("reads and refusals of {BLOCKS} blocks: as expected");
    let mut buffer = [0; BLOCK];
    let (mut read, mut write, mut copy_out, mut copy_in) = (f64::MAX, f64::MAX, f64::MAX, f64::MAX);
    for _ in 0..200 {
        read = read.min(each(CALLS, |i| {
            black_box(proved_read(black_box(&memory), i % BLOCKS, black_box(&mut buffer)));
        }));
        copy_out = copy_out.min(each(CALLS, |i| copied(black_box(&memory[i % BLOCKS * BLOCK..][..BLOCK]), black_box(&mut buffer))));
        copy_in = copy_in.min(each(CALLS, |i| copied(black_box(&buffer), black_box(&mut memory[i % BLOCKS * BLOCK..][..BLOCK]))));
        let start = Instant::now();
        // SAFETY: the callee takes a number alone.
        let answered = unsafe { lezdamir_plain_writes(black_box(CALLS)) };
        write = write.min(start.elapsed().as_nanos() as f64 / CALLS as f64);
        assert_eq!(answered, CALLS);
    }
    println!("{:>6} {:>10} {:>10} {:>6}", "", "proved ns", "copy ns", "ratio");
    println!("{:>6} {read:>10.1} {copy_out:>10.1} {:>6.2}", "read", read / copy_out);
    println!("{:>6} {write:>10.1} {copy_in:>10.1} {:>6.2}", "write", write / copy_in);
}
