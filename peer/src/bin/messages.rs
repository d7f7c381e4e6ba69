//! Reads messages back to back from standard input and prints them as a tab-separated table.

use std::io::{self, Read, Write};

use peer::messages::{parse_first, Command, Side};
use peer::report::refusal_line;

fn main() -> io::Result<()> {
    let mut input = Vec::new();
    io::stdin().lock().read_to_end(&mut input)?;
    io::stdout().lock().write_all(table(&input).as_bytes())
}

/// How much of the input has been taken.
#[derive(Default)]
struct Total {
    new: usize,
    cancel: usize,
    bytes: usize,
}

impl Total {
    fn messages(&self) -> usize {
        self.new + self.cancel
    }

    fn take(&mut self, command: &Command, length: usize) {
        match command {
            Command::New(_) => self.new += 1,
            Command::Cancel(_) => self.cancel += 1,
        }
        self.bytes += length;
    }
}

/// The whole table. Nothing says where a message after a refused one would start, so the first refusal ends it.
fn table(input: &[u8]) -> String {
    let mut lines = vec![String::from("number\tkind\tmember\torder\tside\tlots\tprice")];
    let mut total = Total::default();
    while total.bytes < input.len() {
        match parse_first(&input[total.bytes..]) {
            Ok((command, length)) => {
                lines.push(row(&command));
                total.take(&command, length);
            }
            Err(refusal) => {
                lines.push(refusal_line(&refusal, total.messages(), total.bytes));
                break;
            }
        }
    }
    lines.push(total_line(&total));
    lines.join("\n") + "\n"
}

fn row(command: &Command) -> String {
    match command {
        Command::New(new) => {
            let side = side_word(new.side);
            format!("{}\tnew\t{}\t{}\t{side}\t{}\t{}", new.number, new.member, new.order, new.lots, new.price)
        }
        Command::Cancel(cancel) => format!("{}\tcancel\t{}\t{}\t-\t-\t-", cancel.number, cancel.member, cancel.order),
    }
}

fn side_word(side: Side) -> &'static str {
    match side {
        Side::Buy => "buy",
        Side::Sell => "sell",
    }
}

fn total_line(total: &Total) -> String {
    format!("total\t{} messages\t{} new\t{} cancel\t{} bytes", total.messages(), total.new, total.cancel, total.bytes)
}

#[cfg(test)]
mod tests {
    use super::*;
    use peer::messages::{render, Cancel, NewOrder};

    const HEADER: &str = "number\tkind\tmember\torder\tside\tlots\tprice\n";

    fn run() -> Vec<u8> {
        let new = NewOrder { member: 7, number: 1, order: 3, side: Side::Sell, lots: 10, price: 1000 };
        let cancel = Cancel { member: 7, number: 2, order: 3 };
        [render(&Command::New(new)), render(&Command::Cancel(cancel))].concat()
    }

    const ROWS: &str = "1\tnew\t7\t3\tsell\t10\t1000\n2\tcancel\t7\t3\t-\t-\t-\n";

    #[test]
    fn no_bytes_are_no_messages() {
        assert_eq!(table(b""), format!("{HEADER}total\t0 messages\t0 new\t0 cancel\t0 bytes\n"));
    }

    #[test]
    fn messages_are_rows() {
        assert_eq!(table(&run()), format!("{HEADER}{ROWS}total\t2 messages\t1 new\t1 cancel\t103 bytes\n"));
    }

    #[test]
    fn a_wrong_field_is_refused_at_its_byte_and_ends_the_run() {
        let mut input = run();
        input.extend_from_slice(b"8=FIX.4.4\x019=x\x01");
        input.extend(run());
        let refused = "refused\t11\ta field is wrong or missing\tmessage 3\tbyte 113\n";
        let total = "total\t2 messages\t1 new\t1 cancel\t103 bytes\n";
        assert_eq!(table(&input), format!("{HEADER}{ROWS}{refused}{total}"));
    }

    #[test]
    fn a_wrong_count_and_a_wrong_sum_are_refused_at_the_start_of_the_message() {
        let total = "total\t1 messages\t1 new\t0 cancel\t61 bytes\n";
        let row = "1\tnew\t7\t3\tsell\t10\t1000\n";

        let mut wrong_count = run();
        wrong_count[61 + 12] = b'9';
        let refused = "refused\t12\tBodyLength is not the count of bytes\tmessage 2\tbyte 61\n";
        assert_eq!(table(&wrong_count), format!("{HEADER}{row}{refused}{total}"));

        let mut wrong_sum = run();
        wrong_sum[61 + 38] = b'9';
        let refused = "refused\t13\tCheckSum is not the sum of bytes\tmessage 2\tbyte 61\n";
        assert_eq!(table(&wrong_sum), format!("{HEADER}{row}{refused}{total}"));
    }
}
