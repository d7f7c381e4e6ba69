//! The proved ordered maps beside `BTreeMap`. Each runs the same workload and comes to the same sum; they are timed in turn,
//! and the best round of each counts.

use std::collections::{BTreeMap, BTreeSet};
use std::hint::black_box;
use std::time::Instant;

unsafe extern "C" {
    fn lezdamir_prices_looked_up(keys: *const u32, count: usize, sought: *const u32, sought_count: usize) -> u64;
    fn lezdamir_orders_looked_up(keys: *const u32, count: usize, sought: *const u32, sought_count: usize) -> u64;
    fn lezdamir_prices_changed(keys: *const u32, count: usize, old: *const u32, old_count: usize, new: *const u32, new_count: usize) -> u64;
    fn lezdamir_orders_changed(keys: *const u32, count: usize, old: *const u32, old_count: usize, new: *const u32, new_count: usize) -> u64;
}

type Search = unsafe extern "C" fn(*const u32, usize, *const u32, usize) -> u64;
type Change = unsafe extern "C" fn(*const u32, usize, *const u32, usize, *const u32, usize) -> u64;

fn proved_search(workload: Search, keys: &[u32], sought: &[u32]) -> u64 {
    // SAFETY: the pointers and lengths come from live slices, and the callee keeps none of them.
    unsafe { workload(keys.as_ptr(), keys.len(), sought.as_ptr(), sought.len()) }
}

fn proved_change(workload: Change, keys: &[u32], old: &[u32], new: &[u32]) -> u64 {
    // SAFETY: as above.
    unsafe { workload(keys.as_ptr(), keys.len(), old.as_ptr(), old.len(), new.as_ptr(), new.len()) }
}

fn price(key: u32) -> u32 {
    key
}

fn order_id(key: u32) -> (u32, u32) {
    (key % 64, key)
}

#[inline(never)]
fn plain_search<K: Ord, V: From<u32> + Into<u64> + Copy>(key_of: impl Fn(u32) -> K, keys: &[u32], sought: &[u32]) -> u64 {
    let map: BTreeMap<K, V> = keys.iter().map(|&key| (key_of(key), key.into())).collect();
    sought.iter().filter_map(|&key| map.get(&key_of(key))).map(|&value| value.into()).sum()
}

#[inline(never)]
fn plain_change<K: Ord, V: From<u32> + Into<u64>>(key_of: impl Fn(u32) -> K, keys: &[u32], old: &[u32], new: &[u32]) -> u64 {
    let mut map: BTreeMap<K, V> = keys.iter().map(|&key| (key_of(key), key.into())).collect();
    let mut sum = 0;
    for (&out, &into) in old.iter().zip(new) {
        if let Some(value) = map.remove(&key_of(out)) {
            sum += value.into();
        }
        map.insert(key_of(into), into.into());
    }
    sum
}

/// xorshift64
struct Random(u64);

impl Random {
    fn next(&mut self) -> u32 {
        self.0 ^= self.0 << 13;
        self.0 ^= self.0 >> 7;
        self.0 ^= self.0 << 17;
        (self.0 >> 32) as u32
    }

    /// Keys that differ from one another.
    fn keys(&mut self, count: usize) -> Vec<u32> {
        let mut seen = BTreeSet::new();
        while seen.len() < count {
            seen.insert(self.next());
        }
        let mut keys: Vec<u32> = seen.into_iter().collect();
        for i in (1..count).rev() {
            keys.swap(i, self.next() as usize % (i + 1));
        }
        keys
    }
}

/// So many that no processor learns the way of each.
const OPERATIONS: usize = 65_536;
const TURNS: usize = 60;

/// The best time of an operation, of the proved workload and of the plain one.
fn compare(operations: usize, proved: impl Fn() -> u64, plain: impl Fn() -> u64) -> (f64, f64) {
    let time = |workload: &dyn Fn() -> u64| {
        let start = Instant::now();
        let sum = black_box(workload());
        (sum, start.elapsed().as_nanos() as f64 / operations as f64)
    };
    let mut best = (f64::MAX, f64::MAX);
    for _ in 0..TURNS {
        let (sum, one) = time(&proved);
        let (plain_sum, other) = time(&plain);
        assert_eq!(sum, plain_sum);
        best = (best.0.min(one), best.1.min(other));
    }
    best
}

fn show(name: &str, count: usize, (proved, plain): (f64, f64)) {
    println!("{name:>28} {count:>6} {proved:>10.1} {plain:>12.1} {:>7.2}", proved / plain);
}

fn main() {
    println!("{:>28} {:>6} {:>10} {:>12} {:>7}", "workload", "keys", "proved ns", "BTreeMap ns", "ratio");
    for count in [64, 400, 1_024] {
        let mut random = Random(0x9e37_79b9_7f4a_7c15);
        // the map holds a window of `count` keys that moves along this row
        let row = random.keys(count + OPERATIONS);
        let (keys, old, new) = (&row[..count], &row[..OPERATIONS], &row[count..]);
        // every second key that is sought is there
        let sought: Vec<u32> = (0..OPERATIONS).map(|i| if i % 2 == 0 { keys[random.next() as usize % count] } else { new[i] }).collect();
        let search = |workload| proved_search(workload, black_box(keys), black_box(&sought));
        let change = |workload| proved_change(workload, black_box(keys), black_box(old), black_box(new));
        show("search by price", count, compare(OPERATIONS, || search(lezdamir_prices_looked_up), || plain_search::<_, u32>(price, black_box(keys), black_box(&sought))));
        show("search by order", count, compare(OPERATIONS, || search(lezdamir_orders_looked_up), || plain_search::<_, u64>(order_id, black_box(keys), black_box(&sought))));
        show("removal, insertion by price", count, compare(2 * OPERATIONS, || change(lezdamir_prices_changed), || plain_change::<_, u32>(price, black_box(keys), black_box(old), black_box(new))));
        show("removal, insertion by order", count, compare(2 * OPERATIONS, || change(lezdamir_orders_changed), || plain_change::<_, u64>(order_id, black_box(keys), black_box(old), black_box(new))));
    }
}
