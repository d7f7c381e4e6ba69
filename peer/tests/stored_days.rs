//! The stored days of the programs `queue` and `share` are those that README.md says, and come to what is stored beside them.

use std::fs;
use std::path::PathBuf;

use peer::book::Policy;
use peer::day::Day;
use peer::policies::{fifo, pro_rata};
use peer::report::table;

fn assert_stored(program: &str, seed: u32, policy: Policy) {
    let directory = PathBuf::from(env!("CARGO_MANIFEST_DIR")).join("../crates").join(program);
    let stored = |name| fs::read(directory.join(name)).expect("a stored day");
    let day = Day::new(seed, 300, None).messages_with_wrong_end(seed);
    // Not assert_eq: a difference would show both days whole.
    assert!(stored("stdin") == day, "{program}: another day");
    assert!(stored("stdout") == table(policy, &day).into_bytes(), "{program}: another table");
}

#[test]
fn queue() {
    assert_stored("queue", 4, fifo);
}

#[test]
fn share() {
    assert_stored("share", 7, pro_rata);
}
