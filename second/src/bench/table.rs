//! The measured rows as a table.

use super::rows::MeasuredRow;
use super::SMALL_PART;

/// Cost of an item at full size over that at a part of it.
const GROWTH_BAR: f64 = 1.1;

pub fn text(rows: &[MeasuredRow]) -> String {
    let heading = format!(
        "{:<32} {:>9} {:>9} {:>7} {:>6} {:>8} {:>8} {:>6} {:>8} {:>8}\n",
        "one item", "proved ns", "twin ns", "ratio", "bar", "", "growth", "bar", "", "twin's"
    );
    let lines: String = rows.iter().map(line).collect();
    let carried: String = rows.iter().filter(|row| row.full.carrying != 0.0).map(carried).collect();
    format!("{heading}{lines}growth: an item at full size over an item at 1/{SMALL_PART} of it\n{carried}")
}

fn line(row: &MeasuredRow) -> String {
    let ratio = row.full.proved / row.full.twin;
    let growth = row.full.proved / row.small.proved;
    let (bar, verdict) = match row.bar {
        Some(bar) => (format!("{bar:.2}"), met(ratio, bar)),
        None => ("-".into(), ""),
    };
    format!(
        "{:<32} {:>9.2} {:>9.2} {ratio:>7.2} {bar:>6} {verdict:>8} {growth:>8.2} {GROWTH_BAR:>6.2} {:>8} {:>8.2}\n",
        row.name,
        row.full.proved,
        row.full.twin,
        met(growth, GROWTH_BAR),
        row.full.twin / row.small.twin,
    )
}

/// What is subtracted can exceed what was measured; such a figure meets nothing.
fn met(value: f64, bar: f64) -> &'static str {
    if value > 0.0 && value <= bar {
        "met"
    } else {
        "NOT met"
    }
}

/// What was subtracted, for the rows whose calls carry the machine as words each time.
fn carried(row: &MeasuredRow) -> String {
    let (net, carrying) = (row.full.proved, row.full.carrying);
    let (name, call) = (row.name.trim(), net + carrying);
    format!("{name}: the call takes {call:.2} ns; {carrying:.2} of them carry the machine and are subtracted\n")
}
