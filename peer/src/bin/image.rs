//! Writes a journal's image to standard output: sealed blocks of messages, blocks that are damaged in different ways, and zeros.

use peer::blocks::seal;
use peer::messages::{render, Cancel, Command, NewOrder, Side};
use std::io::{self, Write};

fn order(number: u32) -> Vec<u8> {
    let side = if number % 2 == 0 { Side::Buy } else { Side::Sell };
    render(&Command::New(NewOrder { member: 7, number, order: number, side, lots: 10 * number, price: 1000 + number }))
}

fn cancel(number: u32) -> Vec<u8> {
    render(&Command::Cancel(Cancel { member: 7, number, order: number - 1 }))
}

fn sealed(payload: &[u8]) -> [u8; 512] {
    seal(payload).expect("1 to 505 bytes")
}

/// A sealed block of one order, with one byte changed.
fn damaged(place: usize, byte: u8) -> [u8; 512] {
    let mut block = sealed(&order(9));
    assert_ne!(block[place], byte);
    block[place] = byte;
    block
}

fn main() -> io::Result<()> {
    let zeros = [0; 512];
    let mut wrong_sum = order(13);
    let last_digit = wrong_sum.len() - 2;
    wrong_sum[last_digit] ^= 1;
    let image: Vec<[u8; 512]> = vec![
        sealed(&(1..=8).flat_map(order).collect::<Vec<u8>>()),
        sealed(&[order(9), cancel(10)].concat()),
        sealed(&[cancel(11), b"8=FIX.4.4\x01".to_vec()].concat()),
        sealed(&[order(12), wrong_sum].concat()),
        sealed(&[b'x'; 505]),
        sealed(b"\0"),
        zeros,
        damaged(0, 0),
        damaged(4, 0),
        damaged(5, 2),
        damaged(6, 2),
        damaged(20, b'?'),
        damaged(511, 1),
        zeros,
        zeros,
        zeros,
        sealed(&order(999_999)[..40]),
        zeros,
        zeros,
    ];
    let mut out = io::stdout();
    for block in &image {
        out.write_all(block)?;
    }
    out.write_all(b"left over")
}
