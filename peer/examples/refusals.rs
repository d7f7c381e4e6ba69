//! Prints a table of refused inputs: the bytes with `|` for the byte 1, the number and the place (0 for 12 and 13).
//!
//! Run it with `cargo run --example refusals > refusals.txt`.

use peer::messages::{parse, Refusal};

const NEW: [&str; 10] =
    ["8=FIX.4.4|", "9=NN|", "35=D|", "49=7|", "34=1|", "11=1|", "54=2|", "38=10|", "44=1000|", "10=SSS|"];
const CANCEL: [&str; 7] = ["8=FIX.4.4|", "9=NN|", "35=F|", "49=7|", "34=1|", "41=1|", "10=SSS|"];

fn main() {
    let mut inputs = vec![String::new()];
    for fields in [&NEW[..], &CANCEL[..]] {
        inputs.extend(wrong_fields(fields));
        inputs.extend(wrong_orders(fields));
        inputs.extend(bytes_after(fields));
        inputs.extend(wrong_counts(fields));
        inputs.extend(wrong_sums(fields));
        inputs.extend(several_faults(fields));
    }
    // The kind is right by itself; what does not go with it is wrong.
    inputs.push(seal(&with(&NEW, 2, "35=F|")));
    inputs.push(seal(&with(&CANCEL, 2, "35=D|")));
    inputs.push(seal(&with(&NEW, 5, "41=1|")));
    inputs.push(seal(&with(&CANCEL, 5, "11=1|")));

    let mut shown = std::collections::HashSet::new();
    for input in inputs.iter().filter(|input| shown.insert(input.as_str())) {
        println!("{}", line(input));
    }
}

fn line(input: &str) -> String {
    let refusal = parse(&bytes(input)).expect_err("only refused inputs are listed");
    let place = match refusal {
        Refusal::Field { place } => place,
        Refusal::Count | Refusal::Sum => 0,
    };
    format!("{input}\t{}\t{place}", refusal.number())
}

/// Each field wrong in each way, the others right, count and sum too.
fn wrong_fields(fields: &[&str]) -> Vec<String> {
    let mut inputs = Vec::new();
    for (index, field) in fields.iter().enumerate() {
        let (tag, value) = field.trim_end_matches('|').split_once('=').unwrap();
        let mut wrong = vec![
            format!("99={value}|"),
            format!("0{tag}={value}|"),
            format!("{tag}{value}|"),
            format!("{tag}|"),
            format!("{tag}={value}"),
            format!("{tag}={value} "),
            format!("{tag}=={value}|"),
            String::new(),
        ];
        wrong.extend(wrong_values(tag).iter().map(|value| format!("{tag}={value}|")));
        inputs.extend(wrong.iter().map(|field| seal(&with(fields, index, field))));
        inputs.extend(cut_off(fields, index));
    }
    inputs
}

/// Empty, too long, out of range below and above, with a leading zero, with other bytes than digits.
fn wrong_values(tag: &str) -> &'static [&'static str] {
    match tag {
        "8" => &["", "FIX.4.3", "FIX.4.5", "FIX.4.", "FIX.4.44", "fix.4.4"],
        "9" => &["", "9", "09", "0", "100", "039", "3x", "x9", "3/", "3:", "+39", "4294967335"],
        "35" => &["", "E", "G", "d", "f", "8", "DD", "FF", "DF"],
        "49" => &["", "0", "07", "10000", "09999", "7x", "x7", "/", ":", "+7", "-7", "7 ", "7.0", "4294967303"],
        "34" | "11" | "41" => {
            &["", "0", "01", "1000000000", "0999999999", "1x", "x1", "/", ":", "+1", "-1", "1 ", "1.0", "4294967297"]
        }
        "54" => &["", "0", "3", "01", "02", "11", "22", "B", "+1"],
        "38" | "44" => {
            &["", "0", "01", "010", "1000000", "0999999", "10x", "x10", "1/", "1:", "+10", "-10", "10.0", "4294967306"]
        }
        "10" => &["", "1", "19", "0193", "1930", "19x", "x93", "1/3", "1:3", "+93", " 93", "4294967489"],
        _ => unreachable!("no field {tag}"),
    }
}

/// The end of the input before the field, after its tag, after its `=`, in or after its value.
fn cut_off(fields: &[&str], index: usize) -> Vec<String> {
    let message = seal(&owned(fields));
    let place: usize = fields[..index].iter().map(|field| field.len()).sum();
    let equals = fields[index].find('=').unwrap();
    let lengths = [0, equals, equals + 1, fields[index].len() - 1];
    lengths.iter().map(|length| message[..place + length].to_string()).collect()
}

fn wrong_orders(fields: &[&str]) -> Vec<String> {
    let mut inputs = Vec::new();
    for index in 0..fields.len() - 1 {
        let mut swapped = owned(fields);
        swapped.swap(index, index + 1);
        inputs.push(seal(&swapped));
        inputs.push(seal(&with(fields, index, &fields[index].repeat(2))));
        inputs.push(seal(&with(fields, index, &format!("{}|", fields[index]))));
    }
    inputs
}

fn bytes_after(fields: &[&str]) -> Vec<String> {
    let message = seal(&owned(fields));
    let sum = message[message.len() - 7..].to_string();
    ["x", " ", "|", "0", "58=x|", &sum, &message].iter().map(|rest| format!("{message}{rest}")).collect()
}

/// Wrong counts with the right sum.
fn wrong_counts(fields: &[&str]) -> Vec<String> {
    ["10", "19", "21", "38", "40", "99"].iter().map(|count| seal(&with(fields, 1, &format!("9={count}|")))).collect()
}

fn wrong_sums(fields: &[&str]) -> Vec<String> {
    let last = fields.len() - 1;
    ["000", "001", "255", "256", "999"].iter().map(|sum| seal(&with(fields, last, &format!("10={sum}|")))).collect()
}

/// Inputs that the order of the tests decides.
fn several_faults(fields: &[&str]) -> Vec<String> {
    let last = fields.len() - 1;
    let mut wrong_count_and_sum = with(fields, 1, "9=99|");
    wrong_count_and_sum[last] = String::from("10=999|");
    let mut wrong_field_too = wrong_count_and_sum.clone();
    wrong_field_too[last - 1].insert(3, '0');
    let mut wrong_last_field = with(fields, 1, "9=99|");
    wrong_last_field[last] = String::from("10=99|");
    let mut two_wrong_fields = with(fields, 3, "49=07|");
    two_wrong_fields[4] = String::from("34=01|");
    vec![
        seal(&wrong_count_and_sum),
        seal(&wrong_field_too),
        seal(&wrong_last_field),
        seal(&two_wrong_fields),
        seal(&wrong_count_and_sum) + "x",
        seal(&with(fields, last, "10=256|")) + "x",
    ]
}

fn owned(fields: &[&str]) -> Vec<String> {
    fields.iter().map(|field| field.to_string()).collect()
}

fn with(fields: &[&str], index: usize, field: &str) -> Vec<String> {
    let mut fields = owned(fields);
    fields[index] = field.to_string();
    fields
}

/// Puts the right count for `NN` and the right sum for `SSS`, so that only the intended fault is there.
fn seal(fields: &[String]) -> String {
    let count: usize = fields[2..fields.len() - 1].iter().map(|field| field.len()).sum();
    let text = fields.concat().replace("NN", &count.to_string());
    let before = bytes(text.split("10=SSS").next().unwrap());
    let sum: usize = before.iter().map(|&byte| usize::from(byte)).sum();
    text.replace("SSS", &format!("{:03}", sum % 256))
}

fn bytes(shown: &str) -> Vec<u8> {
    shown.bytes().map(|byte| if byte == b'|' { 1 } else { byte }).collect()
}
