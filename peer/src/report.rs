//! What programs print, where more than one of them prints it.

use crate::book::{Book, Entry, Kind, Level, Policy};
use crate::messages::{parse_first, Refusal, Side};

const ENTRY_HEADER: &str = "command\tmember\torder\tside\tkind\tlots\tprice\tleaves\treason";
const LEVEL_HEADER: &str = "side\tprice\torders\tlots";

/// What happened to a day's messages under a policy: its entries, the closing book and totals, as docs/BOOK.md has them.
pub fn table(policy: Policy, input: &[u8]) -> String {
    let mut book = Book::default();
    let mut total = Total::default();
    let mut lines = vec![String::from(ENTRY_HEADER)];
    let mut place = 0;
    while place < input.len() {
        match parse_first(&input[place..]) {
            Ok((command, length)) => {
                let entries = book.put(policy, &command);
                lines.extend(entries.iter().map(entry_row));
                total.take(&entries);
                place += length;
            }
            // Nothing says where a message after a refused one would start.
            Err(refusal) => {
                lines.push(refusal_line(&refusal, total.commands, place));
                break;
            }
        }
    }
    lines.extend([String::new(), String::from(LEVEL_HEADER)]);
    lines.extend(level_rows(&book));
    lines.extend([String::new(), total_line(&total, &book)]);
    lines.join("\n") + "\n"
}

/// What the commands that were put through came to.
#[derive(Default)]
struct Total {
    commands: usize,
    accepted: usize,
    turned_down: usize,
    cancelled: usize,
    trades: usize,
    /// A day has more lots than one order can.
    lots_traded: u64,
}

impl Total {
    /// Adds the entries of one command.
    fn take(&mut self, entries: &[Entry]) {
        self.commands += 1;
        let count = |kind| entries.iter().filter(|entry| entry.kind == kind).count();
        self.accepted += count(Kind::Accepted);
        self.turned_down += count(Kind::TurnedDown);
        self.cancelled += count(Kind::Cancelled);
        // Both orders of a trade have an entry of it, with the same lots.
        self.trades += count(Kind::Filled) / 2;
        let filled = entries.iter().filter(|entry| entry.kind == Kind::Filled);
        self.lots_traded += filled.map(|entry| u64::from(entry.lots)).sum::<u64>() / 2;
    }
}

fn entry_row(entry: &Entry) -> String {
    let Entry { command, member, order, side, kind, lots, price, leaves, reason } = entry;
    let kind = kind.character();
    format!("{command}\t{member}\t{order}\t{side}\t{kind}\t{lots}\t{price}\t{leaves}\t{reason}")
}

/// The levels of the book, the buys first, best first.
fn level_rows(book: &Book) -> Vec<String> {
    let rows = |side: Side| book.levels(side).iter().map(move |level| level_row(side, level));
    rows(Side::Buy).chain(rows(Side::Sell)).collect()
}

fn level_row(side: Side, level: &Level) -> String {
    let lots: u64 = level.queue.iter().map(|resting| u64::from(resting.lots)).sum();
    format!("{}\t{}\t{}\t{lots}", side.number(), level.price, level.queue.len())
}

fn total_line(total: &Total, book: &Book) -> String {
    [
        String::from("total"),
        format!("{} commands", total.commands),
        format!("{} accepted", total.accepted),
        format!("{} turned down", total.turned_down),
        format!("{} cancelled", total.cancelled),
        format!("{} trades", total.trades),
        format!("{} lots traded", total.lots_traded),
        format!("{} orders rest", book.resting()),
    ]
    .join("\t")
}

/// The line for a refused message, which stands after `messages` messages that take `bytes` bytes together.
pub fn refusal_line(refusal: &Refusal, messages: usize, bytes: usize) -> String {
    let message = messages + 1;
    let byte = bytes + place_in_message(refusal);
    format!("refused\t{}\t{}\tmessage {message}\tbyte {byte}", refusal.number(), meaning(refusal))
}

/// A wrong count or sum is a fault of the message as a whole, so its place is the message's start.
fn place_in_message(refusal: &Refusal) -> usize {
    match refusal {
        Refusal::Field { place } => *place,
        Refusal::Count | Refusal::Sum => 0,
    }
}

fn meaning(refusal: &Refusal) -> &'static str {
    match refusal {
        Refusal::Field { .. } => "a field is wrong or missing",
        Refusal::Count => "BodyLength is not the count of bytes",
        Refusal::Sum => "CheckSum is not the sum of bytes",
    }
}

#[cfg(test)]
mod tests {
    use super::*;
    use crate::messages::Side::{Buy, Sell};
    use crate::messages::{render, Cancel, Command, NewOrder};
    use crate::policies::{fifo, pro_rata};

    fn order(number: u32, member: u32, side: Side, lots: u32, price: u32) -> Vec<u8> {
        render(&Command::New(NewOrder { member, number, order: number, side, lots, price }))
    }

    fn cancel(number: u32, member: u32, order: u32) -> Vec<u8> {
        render(&Command::Cancel(Cancel { member, number, order }))
    }

    /// Sells of 3 and 9 at one price, buys of which one takes 8 of them, and one cancel in vain.
    fn day() -> Vec<u8> {
        [
            order(1, 7, Sell, 3, 100),
            order(2, 8, Sell, 9, 100),
            order(3, 9, Buy, 2, 98),
            order(4, 9, Buy, 4, 99),
            order(5, 9, Buy, 5, 99),
            order(6, 6, Buy, 8, 100),
            cancel(7, 6, 6),
            cancel(8, 9, 3),
        ]
        .concat()
    }

    /// The columns of a table, which tests show with spaces.
    fn shown(table: &str) -> String {
        table.replace('\t', " ")
    }

    const HEADER: &str = "command member order side kind lots price leaves reason";
    const NO_BOOK: &str = "\nside price orders lots\n\n";
    const NOTHING: &str = "0 commands 0 accepted 0 turned down 0 cancelled 0 trades 0 lots traded 0 orders rest";

    #[test]
    fn no_messages_leave_an_empty_book() {
        assert_eq!(shown(&table(fifo, b"")), format!("{HEADER}\n{NO_BOOK}total {NOTHING}\n"));
    }

    #[test]
    fn a_day_is_entries_then_levels_then_totals() {
        let rows = "1 7 1 2 0 3 0 3 0\n2 8 2 2 0 9 0 9 0\n3 9 3 1 0 2 0 2 0\n4 9 4 1 0 4 0 4 0\n5 9 5 1 0 5 0 5 0\n\
                    6 6 6 1 0 8 0 8 0\n6 7 1 2 F 3 100 0 0\n6 6 6 1 F 3 100 5 0\n6 8 2 2 F 5 100 4 0\n\
                    6 6 6 1 F 5 100 0 0\n7 6 6 0 8 0 0 0 5\n8 9 3 1 4 2 0 0 0\n";
        let levels = "side price orders lots\n1 99 2 9\n2 100 1 4\n";
        let total = "total 8 commands 6 accepted 1 turned down 1 cancelled 2 trades 8 lots traded 3 orders rest\n";
        assert_eq!(shown(&table(fifo, &day())), format!("{HEADER}\n{rows}\n{levels}\n{total}"));
    }

    #[test]
    fn a_policy_decides_who_trades() {
        // the shares of 8 are 2 and 6
        let table = shown(&table(pro_rata, &day()));
        assert!(table.contains("6 7 1 2 F 2 100 1 0\n6 6 6 1 F 2 100 6 0\n6 8 2 2 F 6 100 3 0\n6 6 6 1 F 6 100 0 0\n"));
        assert!(table.contains("\n2 100 2 4\n"));
    }

    #[test]
    fn a_refused_message_ends_the_day_but_not_the_table() {
        let input = [order(1, 7, Sell, 3, 100), b"8=FIX.4.4\x019=x\x01".to_vec(), order(2, 8, Buy, 3, 100)].concat();
        let place = order(1, 7, Sell, 3, 100).len() + 10;
        let refused = format!("refused 11 a field is wrong or missing message 2 byte {place}");
        let levels = "side price orders lots\n2 100 1 3\n";
        let total = "total 1 commands 1 accepted 0 turned down 0 cancelled 0 trades 0 lots traded 1 orders rest\n";
        let expected = format!("{HEADER}\n1 7 1 2 0 3 0 3 0\n{refused}\n\n{levels}\n{total}");
        assert_eq!(shown(&table(fifo, &input)), expected);
    }
}
