//! The picture of a histogram of timings: a bar for each 100 ns. Its height goes by the logarithm of the count, so that few timings beside many
//! are seen too.

use crate::refusals::grouped;
use crate::svg::{bar, picture, text};
use thikbromu::HISTOGRAM_COUNTS;

const BAR: f64 = 3.0;
const LEFT: f64 = 30.0;
const BOTTOM: f64 = 260.0;
const TALLEST: f64 = 200.0;

/// The picture of counts: count i is that of the timings from 100 i ns on, and the last that of all longer ones.
pub fn histogram_picture(name: &str, counts: &[u32; HISTOGRAM_COUNTS]) -> String {
    let most = counts.iter().copied().max().unwrap_or(0);
    let timings: u64 = counts.iter().map(|&count| u64::from(count)).sum();
    let height = |count: u32| TALLEST * f64::from(count).ln_1p() / f64::from(most.max(1)).ln_1p();
    let words =
        format!("{name}: {} timings, at most {} in a bar of 0.1 µs", grouped(timings as usize), grouped(most as usize));
    let mut parts = text(LEFT, 24.0, "start", &words);
    for (index, &count) in (0u32..).zip(counts) {
        let x = LEFT + BAR * f64::from(index);
        if index % 20 == 0 {
            parts += &text(x, BOTTOM + 18.0, "middle", &format!("{}", index / 10));
        }
        if count > 0 {
            let from = f64::from(index) / 10.0;
            let range = if index == 255 {
                format!("{from:.1} µs and more")
            } else {
                format!("{from:.1} to {:.1} µs", from + 0.1)
            };
            let title = format!("{range}: {}", grouped(count as usize));
            parts += &bar(x, BOTTOM - height(count), BAR, height(count), "fill=\"#3d85c6\"", &title);
        }
    }
    let width = LEFT + BAR * HISTOGRAM_COUNTS as f64 + 40.0;
    parts += &format!("<path d=\"M{LEFT} {BOTTOM} H{:.1}\" stroke=\"#000000\"/>\n", width - 40.0);
    parts += &text(width - 8.0, BOTTOM + 18.0, "end", "µs");
    picture(width as u32, 300, name, &parts)
}
