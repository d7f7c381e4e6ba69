//! Says of each block of a journal's image, on standard input, what it is.

use peer::blocks::part;
use peer::messages::parse_first;
use std::io::{self, Read, Write};

fn main() -> io::Result<()> {
    let mut image = Vec::new();
    io::stdin().read_to_end(&mut image)?;
    io::stdout().write_all(table(&image).as_bytes())
}

fn table(image: &[u8]) -> String {
    let mut rows = String::from("block\tis\tpayload\tmessages\trefused\n");
    let blocks: Vec<&[u8]> = image.chunks_exact(512).collect();
    let (mut sealed, mut zero, mut neither) = (0, 0, 0);
    let mut at = 0;
    while at < blocks.len() {
        let run = blocks[at..].iter().take_while(|block| block.iter().all(|&b| b == 0)).count();
        if run > 0 {
            let name = if run == 1 { at.to_string() } else { format!("{at}-{}", at + run - 1) };
            rows += &format!("{name}\tzero\t-\t-\t-\n");
            zero += run;
            at += run;
            continue;
        }
        let block: &[u8; 512] = blocks[at].try_into().expect("512 bytes");
        if let Some(payload) = part(block) {
            let (messages, refused) = messages_in(payload);
            rows += &format!("{at}\tsealed\t{}\t{messages}\t{refused}\n", payload.len());
            sealed += 1;
        } else {
            rows += &format!("{at}\tneither\t-\t-\t-\n");
            neither += 1;
        }
        at += 1;
    }
    rows + &format!(
        "total\t{} blocks\t{sealed} sealed\t{zero} zero\t{neither} neither\t{} bytes over\n",
        blocks.len(),
        image.len() % 512
    )
}

/// How many messages stand in a payload from its start on, and the number of the refusal after them.
fn messages_in(mut payload: &[u8]) -> (usize, String) {
    let mut count = 0;
    while !payload.is_empty() {
        match parse_first(payload) {
            Ok((_, length)) => payload = &payload[length..],
            Err(refusal) => return (count, refusal.number().to_string()),
        }
        count += 1;
    }
    (count, String::from("-"))
}
