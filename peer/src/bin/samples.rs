//! Writes a day of messages, back to back, to standard output. The last one is wrong.

use std::io::{self, Write};

use peer::messages::Side::{Buy, Sell};
use peer::messages::{render, Cancel, Command, NewOrder, Side};

const DAY: [Command; 20] = [
    // The shortest message, and the shortest new orders.
    cancel(1, 1, 1),
    new(1, 1, 1, Buy, 1, 1),
    new(1, 2, 2, Sell, 1, 1),
    // Ordinary ones.
    new(7, 3, 1, Sell, 10, 1_000),
    new(12, 4, 1, Buy, 25, 998),
    new(12, 5, 2, Buy, 5, 1_000),
    cancel(7, 6, 1),
    new(345, 7, 1_001, Sell, 300, 1_005),
    new(7, 8, 2, Buy, 150, 1_005),
    cancel(12, 9, 1),
    new(2_048, 10, 77, Sell, 40, 12_345),
    cancel(345, 11, 1_001),
    // Each figure in turn at its largest.
    new(9_999, 12, 1, Buy, 1, 1),
    new(1, 13, 999_999_999, Sell, 1, 1),
    new(1, 14, 3, Buy, 999_999, 1),
    new(1, 15, 4, Sell, 1, 999_999),
    cancel(9_999, 16, 1),
    cancel(1, 17, 999_999_999),
    // The longest cancel, and the longest message.
    cancel(9_999, 999_999_999, 999_999_999),
    new(9_999, 999_999_999, 999_999_999, Buy, 999_999, 999_999),
];

/// The command that is written wrongly at the end of the day.
const LAST: Command = new(7, 18, 3, Sell, 10, 1_000);

fn main() -> io::Result<()> {
    let mut day: Vec<u8> = DAY.iter().flat_map(render).collect();
    day.extend(with_leading_zero_in_lots(&render(&LAST)));
    io::stdout().lock().write_all(&day)
}

const fn new(member: u32, number: u32, order: u32, side: Side, lots: u32, price: u32) -> Command {
    Command::New(NewOrder { member, number, order, side, lots, price })
}

const fn cancel(member: u32, number: u32, order: u32) -> Command {
    Command::Cancel(Cancel { member, number, order })
}

/// Turns `38=10` into `38=01`. Count and sum stay right, so the leading zero is the message's only fault.
fn with_leading_zero_in_lots(message: &[u8]) -> Vec<u8> {
    let right = b"\x0138=10\x01";
    let start = message.windows(right.len()).position(|window| window == right).expect("the last order has 10 lots");
    let mut wrong = message.to_vec();
    wrong[start..start + right.len()].copy_from_slice(b"\x0138=01\x01");
    wrong
}
