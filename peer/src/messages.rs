//! The message format: a command as the one run of bytes that says it, and back.
//!
//! Every command has exactly one spelling, so the reader never skips, trims or repairs anything.

use std::ops::RangeInclusive;

/// The byte that ends every field.
const SOH: u8 = 1;

const BEGIN_STRING: &str = "FIX.4.4";

const MEMBERS: RangeInclusive<u32> = 1..=9_999;
const COMMAND_NUMBERS: RangeInclusive<u32> = 1..=999_999_999;
const ORDERS: RangeInclusive<u32> = 1..=999_999_999;
const LOTS: RangeInclusive<u32> = 1..=999_999;
const PRICES: RangeInclusive<u32> = 1..=999_999;
const BODY_LENGTHS: RangeInclusive<u32> = 10..=99;

/// The most digits that any number of the format has. Nine digits always fit a `u32`.
const MOST_DIGITS: usize = 9;

#[derive(Debug, Clone, Copy, PartialEq, Eq)]
pub enum Side {
    Buy,
    Sell,
}

impl Side {
    /// The number by which messages and entries know the side.
    pub fn number(self) -> u32 {
        match self {
            Side::Buy => 1,
            Side::Sell => 2,
        }
    }

    /// The side with which this one trades.
    pub fn other(self) -> Side {
        match self {
            Side::Buy => Side::Sell,
            Side::Sell => Side::Buy,
        }
    }
}

#[derive(Debug, Clone, Copy, PartialEq, Eq)]
pub struct NewOrder {
    /// 1 to 9,999.
    pub member: u32,
    /// The command's number, 1 to 999,999,999.
    pub number: u32,
    /// The member's number of the order, 1 to 999,999,999.
    pub order: u32,
    pub side: Side,
    /// 1 to 999,999.
    pub lots: u32,
    /// 1 to 999,999.
    pub price: u32,
}

#[derive(Debug, Clone, Copy, PartialEq, Eq)]
pub struct Cancel {
    /// 1 to 9,999.
    pub member: u32,
    /// The command's number, 1 to 999,999,999.
    pub number: u32,
    /// The number of the order to cancel, 1 to 999,999,999.
    pub order: u32,
}

#[derive(Debug, Clone, Copy, PartialEq, Eq)]
pub enum Command {
    New(NewOrder),
    Cancel(Cancel),
}

/// Why bytes are not a message. The variants stand in the order in which they are tested.
#[derive(Debug, Clone, Copy, PartialEq, Eq)]
pub enum Refusal {
    /// A field is wrong or missing, or bytes follow the last: `place` is where the last right field ended.
    Field { place: usize },
    /// Field 9 is not the count of bytes.
    Count,
    /// Field 10 is not the sum of bytes.
    Sum,
}

impl Refusal {
    /// The number by which the format knows the refusal.
    pub fn number(&self) -> u32 {
        match self {
            Refusal::Field { .. } => 11,
            Refusal::Count => 12,
            Refusal::Sum => 13,
        }
    }
}

/// Reads `bytes`, the whole of which must be one message.
pub fn parse(bytes: &[u8]) -> Result<Command, Refusal> {
    let message = Message::read(bytes)?;
    // Bytes after the message are an 11, so they are looked for before the count and the sum are.
    if message.end < bytes.len() {
        return Err(Refusal::Field { place: message.end });
    }
    message.check(bytes)?;
    Ok(message.command)
}

/// Reads the message with which `bytes` begin, and says how many bytes it takes. What follows it is not looked at.
pub fn parse_first(bytes: &[u8]) -> Result<(Command, usize), Refusal> {
    let message = Message::read(bytes)?;
    message.check(bytes)?;
    Ok((message.command, message.end))
}

/// Writes the one message that says `command`.
///
/// The command's figures must be within their ranges; with others the result is no message, and `parse` refuses it.
pub fn render(command: &Command) -> Vec<u8> {
    let body = render_body(command);
    let mut message = field(8, BEGIN_STRING) + &field(9, body.len()) + &body;
    let sum = sum_of(message.as_bytes());
    message += &field(10, format!("{sum:03}"));
    message.into_bytes()
}

/// The fields that field 9 counts: those between it and field 10.
fn render_body(command: &Command) -> String {
    match command {
        Command::New(new) => [
            field(35, 'D'),
            field(49, new.member),
            field(34, new.number),
            field(11, new.order),
            field(54, new.side.number()),
            field(38, new.lots),
            field(44, new.price),
        ]
        .concat(),
        Command::Cancel(cancel) => {
            [field(35, 'F'), field(49, cancel.member), field(34, cancel.number), field(41, cancel.order)].concat()
        }
    }
}

fn field(tag: u32, value: impl std::fmt::Display) -> String {
    format!("{tag}={value}{}", char::from(SOH))
}

/// The sum of the bytes modulo 256, which is what wrapping a byte around gives.
fn sum_of(bytes: &[u8]) -> u8 {
    bytes.iter().fold(0, |sum, &byte| sum.wrapping_add(byte))
}

/// A message all of whose fields are right, but whose count and sum are yet to be compared with the bytes.
///
/// The fields are found without them, so that a wrong count cannot lead the reader astray.
struct Message {
    command: Command,
    /// What field 9 says.
    body_length: u32,
    /// What field 10 says. It can be above 255: that is a right field with a wrong sum.
    check_sum: u32,
    /// Where field 9 ended.
    body_start: usize,
    /// Where field 10 starts.
    body_end: usize,
    /// Where field 10 ended.
    end: usize,
}

impl Message {
    fn read(bytes: &[u8]) -> Result<Message, Refusal> {
        let mut fields = Fields { bytes, place: 0 };
        fields.take(8, begin_string)?;
        let body_length = fields.take(9, |value| number(value, BODY_LENGTHS))?;
        let body_start = fields.place;
        let command = read_command(&mut fields)?;
        let body_end = fields.place;
        let check_sum = fields.take(10, three_digits)?;
        let end = fields.place;
        Ok(Message { command, body_length, check_sum, body_start, body_end, end })
    }

    fn check(&self, bytes: &[u8]) -> Result<(), Refusal> {
        if self.body_length as usize != self.body_end - self.body_start {
            return Err(Refusal::Count);
        }
        if self.check_sum != u32::from(sum_of(&bytes[..self.body_end])) {
            return Err(Refusal::Sum);
        }
        Ok(())
    }
}

/// What field 35 says that a message is.
enum Kind {
    New,
    Cancel,
}

fn read_command(fields: &mut Fields) -> Result<Command, Refusal> {
    let kind = fields.take(35, kind)?;
    let member = fields.take(49, |value| number(value, MEMBERS))?;
    let number_of_command = fields.take(34, |value| number(value, COMMAND_NUMBERS))?;
    match kind {
        Kind::New => Ok(Command::New(NewOrder {
            member,
            number: number_of_command,
            order: fields.take(11, |value| number(value, ORDERS))?,
            side: fields.take(54, side)?,
            lots: fields.take(38, |value| number(value, LOTS))?,
            price: fields.take(44, |value| number(value, PRICES))?,
        })),
        Kind::Cancel => Ok(Command::Cancel(Cancel {
            member,
            number: number_of_command,
            order: fields.take(41, |value| number(value, ORDERS))?,
        })),
    }
}

/// The bytes of a message, and how far its fields have been found right.
struct Fields<'a> {
    bytes: &'a [u8],
    /// Where the last right field ended.
    place: usize,
}

impl Fields<'_> {
    /// Takes the next field, which must have this tag and a value of which `read` makes something.
    ///
    /// The place moves on only if all of the field is right, so that a refusal names the field's start however the
    /// field is wrong.
    fn take<T>(&mut self, tag: u32, read: impl Fn(&[u8]) -> Option<T>) -> Result<T, Refusal> {
        let rest = &self.bytes[self.place..];
        let (result, length) = first_field(rest, tag)
            .and_then(|(value, length)| Some((read(value)?, length)))
            .ok_or(Refusal::Field { place: self.place })?;
        self.place += length;
        Ok(result)
    }
}

/// The value of the field at the start of `bytes`, and the length of the whole field, if it is one with this tag.
fn first_field(bytes: &[u8], tag: u32) -> Option<(&[u8], usize)> {
    let start = format!("{tag}=");
    let rest = bytes.strip_prefix(start.as_bytes())?;
    let value_length = rest.iter().position(|&byte| byte == SOH)?;
    Some((&rest[..value_length], start.len() + value_length + 1))
}

fn begin_string(value: &[u8]) -> Option<()> {
    (value == BEGIN_STRING.as_bytes()).then_some(())
}

fn kind(value: &[u8]) -> Option<Kind> {
    match value {
        b"D" => Some(Kind::New),
        b"F" => Some(Kind::Cancel),
        _ => None,
    }
}

fn side(value: &[u8]) -> Option<Side> {
    match value {
        b"1" => Some(Side::Buy),
        b"2" => Some(Side::Sell),
        _ => None,
    }
}

/// A number in its only spelling. No range has 0 in it, so a number never starts with one.
fn number(value: &[u8], range: RangeInclusive<u32>) -> Option<u32> {
    if value.starts_with(b"0") || value.len() > MOST_DIGITS {
        return None;
    }
    digits(value).filter(|number| range.contains(number))
}

/// Field 10's number: the one that keeps its leading zeros.
fn three_digits(value: &[u8]) -> Option<u32> {
    if value.len() != 3 {
        return None;
    }
    digits(value)
}

/// What at most `MOST_DIGITS` digits say. The callers see to the length, so nothing overflows.
fn digits(value: &[u8]) -> Option<u32> {
    if value.is_empty() || !value.iter().all(u8::is_ascii_digit) {
        return None;
    }
    Some(value.iter().fold(0, |number, &digit| 10 * number + u32::from(digit - b'0')))
}

#[cfg(test)]
mod tests {
    use super::*;

    const EXAMPLE: &str = "8=FIX.4.4|9=39|35=D|49=7|34=1|11=1|54=2|38=10|44=1000|10=193|";
    const SHORTEST: &str = "8=FIX.4.4|9=20|35=F|49=1|34=1|41=1|10=";
    const LONGEST: &str = "8=FIX.4.4|9=64|35=D|49=9999|34=999999999|11=999999999|54=1|38=999999|44=999999|10=";

    const NEW: [&str; 10] =
        ["8=FIX.4.4|", "9=NN|", "35=D|", "49=7|", "34=1|", "11=1|", "54=2|", "38=10|", "44=1000|", "10=SSS|"];
    const CANCEL: [&str; 7] = ["8=FIX.4.4|", "9=NN|", "35=F|", "49=7|", "34=1|", "41=1|", "10=SSS|"];

    const EXAMPLE_COMMAND: Command =
        Command::New(NewOrder { member: 7, number: 1, order: 1, side: Side::Sell, lots: 10, price: 1000 });

    /// The bytes that a text with `|` for the byte 1 shows.
    fn bytes(shown: &str) -> Vec<u8> {
        shown.bytes().map(|byte| if byte == b'|' { SOH } else { byte }).collect()
    }

    /// The message of these fields, in which `NN` and `SSS` stand for the right count and the right sum.
    ///
    /// With them right, only the fault that a test puts in can be the reason of a refusal. A count above 99 has no right
    /// spelling, so there 99 stands.
    fn seal<S: AsRef<str>>(fields: &[S]) -> Vec<u8> {
        let fields: Vec<&str> = fields.iter().map(AsRef::as_ref).collect();
        let count: usize = fields[2..fields.len() - 1].iter().map(|field| field.len()).sum();
        let text = fields.concat().replace("NN", &count.min(99).to_string());
        let before = bytes(text.split("10=SSS").next().unwrap());
        let sum: usize = before.iter().map(|&byte| usize::from(byte)).sum();
        bytes(&text.replace("SSS", &format!("{:03}", sum % 256)))
    }

    /// Where the field at `index` starts.
    fn place_of(fields: &[&str], index: usize) -> usize {
        fields[..index].iter().map(|field| field.len()).sum()
    }

    fn with(fields: &[&str], index: usize, field: &str) -> Vec<String> {
        let mut fields: Vec<String> = fields.iter().map(|field| field.to_string()).collect();
        fields[index] = field.to_string();
        fields
    }

    fn at(place: usize) -> Result<Command, Refusal> {
        Err(Refusal::Field { place })
    }

    /// Asserts that both readers refuse the bytes with an 11 at the place.
    fn assert_refused_at(place: usize, input: &[u8]) {
        let shown = String::from_utf8_lossy(input).replace('\x01', "|");
        assert_eq!(parse(input), at(place), "{shown}");
        assert_eq!(parse_first(input), Err(Refusal::Field { place }), "{shown}");
    }

    fn new_order(member: u32, number: u32, order: u32, side: Side, lots: u32, price: u32) -> Command {
        Command::New(NewOrder { member, number, order, side, lots, price })
    }

    fn cancel(member: u32, number: u32, order: u32) -> Command {
        Command::Cancel(Cancel { member, number, order })
    }

    /// Every command whose figures are each one of a few at and near the limits.
    fn commands_at_limits() -> Vec<Command> {
        let members = [1, 9, 10, 9_998, 9_999];
        let numbers = [1, 9, 10, 999_999_998, 999_999_999];
        let small = [1, 10, 999_998, 999_999];
        let mut commands = Vec::new();
        for member in members {
            for number in numbers {
                for order in numbers {
                    commands.push(cancel(member, number, order));
                    for lots in small {
                        for price in small {
                            commands.push(new_order(member, number, order, Side::Buy, lots, price));
                            commands.push(new_order(member, number, order, Side::Sell, lots, price));
                        }
                    }
                }
            }
        }
        commands
    }

    #[test]
    fn the_example_is_read_and_written() {
        let message = bytes(EXAMPLE);
        assert_eq!(message.len(), 61);
        assert_eq!(parse(&message), Ok(EXAMPLE_COMMAND));
        assert_eq!(render(&EXAMPLE_COMMAND), message);
        assert_eq!(seal(&NEW), message);
    }

    #[test]
    fn the_shortest_message_is_as_shown() {
        let command = cancel(1, 1, 1);
        let message = render(&command);
        assert_eq!(message.len(), 42);
        assert!(message.starts_with(&bytes(SHORTEST)));
        assert_eq!(parse(&message), Ok(command));
    }

    #[test]
    fn the_longest_message_is_as_shown() {
        let command = new_order(9_999, 999_999_999, 999_999_999, Side::Buy, 999_999, 999_999);
        let message = render(&command);
        assert_eq!(message.len(), 86);
        assert!(message.starts_with(&bytes(LONGEST)));
        assert_eq!(parse(&message), Ok(command));
    }

    #[test]
    fn a_cancel_is_read() {
        assert_eq!(parse(&seal(&CANCEL)), Ok(cancel(7, 1, 1)));
    }

    #[test]
    fn refusals_have_their_numbers() {
        assert_eq!(Refusal::Field { place: 5 }.number(), 11);
        assert_eq!(Refusal::Count.number(), 12);
        assert_eq!(Refusal::Sum.number(), 13);
    }

    #[test]
    fn the_places_of_the_page() {
        assert_refused_at(20, &seal(&with(&CANCEL, 3, "49=07|")));
        assert_refused_at(0, b"");
        let message = bytes(EXAMPLE);
        assert_eq!(parse(&[&message[..], b"x"].concat()), at(61));
    }

    #[test]
    fn what_is_rendered_is_read_back() {
        for command in commands_at_limits() {
            let message = render(&command);
            assert_eq!(parse(&message), Ok(command));
            assert!((42..=86).contains(&message.len()));
        }
    }

    #[test]
    fn what_follows_is_no_fault_of_the_first() {
        for command in commands_at_limits() {
            let message = render(&command);
            let rests: [&[u8]; 6] = [b"", b"x", b"\x01", b"0", b"10=193\x01", &message];
            for rest in rests {
                let run = [&message[..], rest].concat();
                assert_eq!(parse_first(&run), Ok((command, message.len())));
                if !rest.is_empty() {
                    assert_eq!(parse(&run), at(message.len()));
                }
            }
        }
    }

    /// Wrong values of the field with this tag: empty, too long, out of range, with a leading zero, with other bytes.
    #[rustfmt::skip]
    fn wrong_values(tag: &str) -> &'static [&'static str] {
        match tag {
            "8" => &[
                "", "FIX.4.2", "FIX.4.3", "FIX.4.5", "FIX.4.4 ", " FIX.4.4", "FIX.4.", "FIX.4.44", "fix.4.4",
                "FIXT.1.1",
            ],
            "9" => &[
                "", "0", "1", "9", "00", "01", "09", "100", "999", "039", "0039", "+39", "-39", " 39", "39 ", "3x",
                "x9", "3/", "3:", "39.0", "4294967335", "18446744073709551655",
                "99999999999999999999999999999999999999999",
            ],
            "35" => &["", "d", "f", "E", "G", "0", "8", "DD", "FF", "DF", " D", "D ", "F "],
            "49" => &[
                "", "0", "00", "07", "007", "10000", "99999", "09999", "-1", "+7", " 7", "7 ", "7.0", "7x", "x", "/",
                ":", "=7", "7=", "4294967303", "18446744073709551623",
            ],
            "34" | "11" | "41" => &[
                "", "0", "00", "01", "001", "000000001", "0000000001", "1000000000", "9999999999", "0999999999", "-1",
                "+1", " 1", "1 ", "1.0", "1x", "x", "/", ":", "=1", "1=", "4294967295", "4294967296", "4294967297",
                "18446744073709551617",
            ],
            "54" => {
                &["", "0", "3", "9", "01", "02", "10", "11", "12", "20", "22", "B", "S", " 1", "1 ", "+1", "4294967297"]
            }
            "38" | "44" => &[
                "", "0", "00", "01", "010", "000010", "0000010", "1000000", "9999999", "0999999", "-1", "+10", " 10",
                "10 ", "10.0", "1x", "x", "/", ":", "=1", "1=", "1,000", "4294967306", "18446744073709551626",
            ],
            "10" => &[
                "", "1", "19", "0193", "1930", "1234", "+93", "-93", " 93", "93 ", "19x", "x93", "1/3", "1:3", "19=",
                "000000000193",
            ],
            _ => unreachable!("no field {tag}"),
        }
    }

    #[test]
    fn every_wrong_value_of_every_field_is_refused_where_the_field_starts() {
        for fields in [&NEW[..], &CANCEL[..]] {
            for (index, field) in fields.iter().enumerate() {
                let place = place_of(fields, index);
                let tag = field.split('=').next().unwrap();
                for value in wrong_values(tag) {
                    assert_refused_at(place, &seal(&with(fields, index, &format!("{tag}={value}|"))));
                }
            }
        }
    }

    #[test]
    fn every_wrong_form_of_every_field_is_refused_where_the_field_starts() {
        for fields in [&NEW[..], &CANCEL[..]] {
            for (index, field) in fields.iter().enumerate() {
                let place = place_of(fields, index);
                let (tag, value) = field.trim_end_matches('|').split_once('=').unwrap();
                let wrong = [
                    format!("1={value}|"),
                    format!("99={value}|"),
                    format!("0{tag}={value}|"),
                    format!("{tag}0={value}|"),
                    format!(" {tag}={value}|"),
                    format!("{tag} ={value}|"),
                    format!("{tag}= {value}|"),
                    format!("={value}|"),
                    format!("{value}|"),
                    format!("{tag}{value}|"),
                    format!("{tag}:{value}|"),
                    format!("{tag}|"),
                    format!("{tag}=|"),
                    format!("{tag}|={value}|"),
                    format!("{tag}=={value}|"),
                    format!("{tag}={value}"),
                    format!("{tag}={value} "),
                    format!("{tag}={value}\0"),
                    format!("{tag}={value}\x02"),
                    format!("{tag}={value}\n"),
                    format!("{tag}={value}=|"),
                    format!("|{tag}={value}|"),
                    String::from("|"),
                    String::new(),
                ];
                for field in wrong {
                    assert_refused_at(place, &seal(&with(fields, index, &field)));
                }
            }
        }
    }

    #[test]
    fn a_doubled_byte_1_or_field_is_refused_where_the_next_field_starts() {
        for fields in [&NEW[..], &CANCEL[..]] {
            // After field 10 the message is at its end, and only `parse` minds what follows.
            for index in 0..fields.len() - 1 {
                let place = place_of(fields, index + 1);
                for extra in ["|", fields[index], "58=x|", " "] {
                    let doubled = format!("{}{extra}", fields[index]);
                    assert_refused_at(place, &seal(&with(fields, index, &doubled)));
                }
            }
        }
    }

    #[test]
    fn a_field_out_of_order_is_refused_at_the_first_wrong_one() {
        for fields in [&NEW[..], &CANCEL[..]] {
            for index in 0..fields.len() - 1 {
                let mut swapped = fields.to_vec();
                swapped.swap(index, index + 1);
                assert_refused_at(place_of(fields, index), &seal(&swapped));
            }
        }
    }

    #[test]
    fn a_field_of_the_other_kind_is_refused() {
        assert_refused_at(place_of(&NEW, 5), &seal(&with(&NEW, 5, "41=1|")));
        assert_refused_at(place_of(&CANCEL, 5), &seal(&with(&CANCEL, 5, "11=1|")));
        // The kind is right by itself; the first field that does not go with it is the wrong one.
        assert_refused_at(place_of(&NEW, 5), &seal(&with(&NEW, 2, "35=F|")));
        assert_refused_at(place_of(&CANCEL, 5), &seal(&with(&CANCEL, 2, "35=D|")));
    }

    #[test]
    fn a_message_cut_off_is_refused_where_its_last_whole_field_ends() {
        for fields in [&NEW[..], &CANCEL[..]] {
            let message = seal(fields);
            for length in 0..message.len() {
                let place = message[..length].iter().rposition(|&byte| byte == SOH).map_or(0, |last| last + 1);
                assert_refused_at(place, &message[..length]);
            }
        }
    }

    #[test]
    fn a_byte_that_is_no_digit_is_refused_in_every_number() {
        for fields in [&NEW[..], &CANCEL[..]] {
            let message = seal(fields);
            for (index, field) in fields.iter().enumerate().filter(|(index, _)| ![0, 2].contains(index)) {
                let place = place_of(fields, index);
                let value = place + field.find('=').unwrap() + 1..place + field.len() - 1;
                for position in value {
                    // The byte 1 would end the value instead: `38=1|` is a right field.
                    for byte in (0..=255).filter(|&byte: &u8| !byte.is_ascii_digit() && byte != SOH) {
                        let mut wrong = message.clone();
                        wrong[position] = byte;
                        assert_refused_at(place, &wrong);
                    }
                }
            }
        }
    }

    #[test]
    fn a_value_of_any_length_is_read_without_overflow() {
        for fields in [&NEW[..], &CANCEL[..]] {
            for (index, field) in fields.iter().enumerate() {
                let tag = field.split('=').next().unwrap();
                for digit in ["0", "1", "9"] {
                    for length in [10, 11, 20, 21, 40, 100_000] {
                        let long = format!("{tag}={}|", digit.repeat(length));
                        assert_refused_at(place_of(fields, index), &seal(&with(fields, index, &long)));
                    }
                }
            }
        }
    }

    #[test]
    fn every_number_but_the_right_one_in_field_9_is_a_wrong_count() {
        for (fields, right) in [(&NEW[..], 39), (&CANCEL[..], 20)] {
            for count in 10..=99 {
                let message = seal(&with(fields, 1, &format!("9={count}|")));
                let expected = if count == right { None } else { Some(Refusal::Count) };
                assert_eq!(parse(&message).err(), expected);
                assert_eq!(parse_first(&message).err(), expected);
            }
        }
    }

    #[test]
    fn every_number_but_the_right_one_in_field_10_is_a_wrong_sum() {
        for sum in 0..=999 {
            let message = bytes(&EXAMPLE.replace("10=193", &format!("10={sum:03}")));
            let expected = if sum == 193 { None } else { Some(Refusal::Sum) };
            assert_eq!(parse(&message).err(), expected);
            assert_eq!(parse_first(&message).err(), expected);
        }
    }

    #[test]
    fn a_sum_below_100_keeps_its_zeros() {
        let sums = |command: &Command| {
            let message = render(command);
            String::from_utf8(message[message.len() - 4..message.len() - 1].to_vec()).unwrap()
        };
        let commands = commands_at_limits();
        let low: Vec<&Command> = commands.iter().filter(|command| sums(command).starts_with('0')).collect();
        assert!(!low.is_empty());
        assert!(low.iter().any(|command| sums(command).starts_with("00")));
        for command in low {
            let message = render(command);
            assert_eq!(parse(&message), Ok(*command));
            let sum_place = message.len() - 7;
            let without_zero = [&message[..sum_place + 3], &message[sum_place + 4..]].concat();
            assert_refused_at(sum_place, &without_zero);
        }
    }

    #[test]
    fn fields_are_tested_before_the_count_and_the_count_before_the_sum() {
        let wrong_field =
            bytes(&EXAMPLE.replace("44=1000", "44=01000").replace("9=39", "9=38").replace("10=193", "10=000"));
        assert_refused_at(46, &wrong_field);

        let wrong_last_field = bytes(&EXAMPLE.replace("9=39", "9=38").replace("10=193", "10=19"));
        assert_refused_at(54, &wrong_last_field);

        let wrong_count_and_sum = bytes(&EXAMPLE.replace("9=39", "9=38").replace("10=193", "10=999"));
        assert_eq!(parse(&wrong_count_and_sum), Err(Refusal::Count));
        assert_eq!(parse_first(&wrong_count_and_sum), Err(Refusal::Count));

        // Bytes after the last field are an 11 as well, and so come before both. In a run they are no fault.
        let wrong_count_and_more = [&wrong_count_and_sum[..], b"x"].concat();
        assert_eq!(parse(&wrong_count_and_more), at(61));
        assert_eq!(parse_first(&wrong_count_and_more), Err(Refusal::Count));

        let wrong_sum_and_more = bytes(&(EXAMPLE.replace("10=193", "10=256") + "x"));
        assert_eq!(parse(&wrong_sum_and_more), at(61));
        assert_eq!(parse_first(&wrong_sum_and_more), Err(Refusal::Sum));
    }

    #[test]
    fn the_first_wrong_field_is_the_one_named() {
        for fields in [&NEW[..], &CANCEL[..]] {
            for first in 0..fields.len() {
                for second in first + 1..fields.len() {
                    let mut wrong = fields.to_vec();
                    wrong[first] = "x|";
                    wrong[second] = "x|";
                    assert_refused_at(place_of(fields, first), &seal(&wrong));
                }
            }
        }
    }

    #[test]
    fn a_message_that_differs_in_a_byte_is_refused() {
        for message in [seal(&NEW), seal(&CANCEL)] {
            for position in 0..message.len() {
                for byte in (0..=255).filter(|&byte| byte != message[position]) {
                    let mut other = message.clone();
                    other[position] = byte;
                    assert!(parse(&other).is_err());
                }
            }
        }
    }

    /// Changes that keep the sum are those that only the fields and the count can catch.
    #[test]
    fn what_is_read_is_what_would_be_written() {
        for message in [seal(&NEW), seal(&CANCEL), render(&new_order(12, 34, 56, Side::Buy, 78, 90))] {
            for one in 0..message.len() {
                for other in 0..message.len() {
                    let mut swapped = message.clone();
                    swapped.swap(one, other);
                    if let Ok(command) = parse(&swapped) {
                        assert_eq!(render(&command), swapped);
                    }
                    let mut shifted = message.clone();
                    shifted[one] = shifted[one].wrapping_add(1);
                    shifted[other] = shifted[other].wrapping_sub(1);
                    if let Ok(command) = parse(&shifted) {
                        assert_eq!(render(&command), shifted);
                    }
                }
            }
        }
    }

    #[test]
    fn a_command_out_of_its_ranges_is_not_read_back() {
        let wrong = [
            (new_order(0, 1, 1, Side::Buy, 1, 1), 20),
            (new_order(10_000, 1, 1, Side::Buy, 1, 1), 20),
            (new_order(1, 0, 1, Side::Buy, 1, 1), 25),
            (new_order(1, 1_000_000_000, 1, Side::Buy, 1, 1), 25),
            (new_order(1, 1, 0, Side::Buy, 1, 1), 30),
            (new_order(1, 1, 1_000_000_000, Side::Buy, 1, 1), 30),
            (new_order(1, 1, 1, Side::Buy, 0, 1), 40),
            (new_order(1, 1, 1, Side::Buy, 1_000_000, 1), 40),
            (new_order(1, 1, 1, Side::Buy, 1, 0), 45),
            (new_order(1, 1, 1, Side::Buy, 1, 1_000_000), 45),
            (cancel(0, 1, 1), 20),
            (cancel(10_000, 1, 1), 20),
            (cancel(1, 0, 1), 25),
            (cancel(1, 1_000_000_000, 1), 25),
            (cancel(1, 1, 0), 30),
            (cancel(1, 1, 1_000_000_000), 30),
            (new_order(u32::MAX, u32::MAX, u32::MAX, Side::Sell, u32::MAX, u32::MAX), 20),
        ];
        for (command, place) in wrong {
            assert_refused_at(place, &render(&command));
        }
    }

    #[test]
    fn messages_back_to_back_are_read_one_by_one() {
        let commands = commands_at_limits();
        let run: Vec<u8> = commands.iter().flat_map(render).collect();
        let mut rest = &run[..];
        for command in commands {
            let (first, length) = parse_first(rest).unwrap();
            assert_eq!(first, command);
            rest = &rest[length..];
        }
        assert!(rest.is_empty());
    }
}
