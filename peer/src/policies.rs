//! The two policies in the simplest plain Rust, after docs/POLICIES.md, to be compared with the proved ones.

/// First in, first out: each order in turn is filled as far as the quantity goes.
pub fn fifo(q: u32, lots: &[u32]) -> Vec<u32> {
    let mut left = q;
    let mut fills = Vec::new();
    for &order in lots {
        let fill = left.min(order);
        left -= fill;
        fills.push(fill);
    }
    fills
}

/// Each order its share of what trades, rounded down; then the remainder FIFO over what each order still has.
pub fn pro_rata(q: u32, lots: &[u32]) -> Vec<u32> {
    let total: u64 = lots.iter().map(|&order| u64::from(order)).sum();
    let trades = u64::from(q).min(total);
    let shares: Vec<u32> = lots.iter().map(|&order| (trades * u64::from(order) / total) as u32).collect();
    let dealt: u64 = shares.iter().map(|&share| u64::from(share)).sum();
    let still: Vec<u32> = lots.iter().zip(&shares).map(|(order, share)| order - share).collect();
    let more = fifo((trades - dealt) as u32, &still);
    shares.iter().zip(&more).map(|(share, more)| share + more).collect()
}
