//! The histogram for a terminal.

use std::collections::BTreeMap;

/// The most lines.
const LINES: usize = 40;

/// The longest bar, in characters.
const LONGEST: f64 = 48.0;

/// A line for each count of keys that some pair has; for a range of counts where that makes too
/// many lines. Bars are logarithmic.
pub fn draw(pairs_at: &BTreeMap<u32, u32>) -> String {
    let mut size = 1;
    let mut grouped = pairs_at.clone();
    while grouped.len() > LINES {
        size *= 2;
        grouped.clear();
        for (count, pairs) in pairs_at {
            *grouped.entry(count - count % size).or_insert(0) += pairs;
        }
    }

    let most = grouped.values().copied().max().unwrap_or(1);
    let scale = LONGEST / length(most);
    let mut text = format!("{:>13} {:>8}  (bars are logarithmic)\n", "keys", "pairs");
    for (&count, &pairs) in &grouped {
        let keys = match size {
            1 => count.to_string(),
            _ => format!("{count} to {}", count + size - 1),
        };
        let bar = "#".repeat((length(pairs) * scale).round() as usize);
        text += &format!("{keys:>13} {pairs:>8}  {bar}\n");
    }
    text
}

fn length(pairs: u32) -> f64 {
    f64::from(pairs + 1).ln()
}
