//! Markdown tables, and numbers as they stand in them.

/// A table and the blank line after it; the first column is text, the others
/// are numbers.
pub fn text(head: &[String], rows: &[Vec<String>]) -> String {
    let mut text = line(head);
    text += &format!("|---|{}\n", "---:|".repeat(head.len() - 1));
    rows.iter().for_each(|row| text += &line(row));
    text + "\n"
}

fn line(cells: &[String]) -> String {
    format!("| {} |\n", cells.join(" | "))
}

/// Three digits that count.
pub fn number(value: f64) -> String {
    let decimals = if value > 0.0 { 2.0 - (1.002 * value).log10().floor() } else { 0.0 };
    format!("{value:.*}", decimals.clamp(0.0, 6.0) as usize)
}

/// Nanoseconds in the unit that suits them.
pub fn time(nanoseconds: f64) -> String {
    match nanoseconds {
        t if t < 999.5 => format!("{} ns", number(t)),
        t if t < 999_500.0 => format!("{} µs", number(t / 1e3)),
        t => format!("{} ms", number(t / 1e6)),
    }
}

/// A row's cells: its label, and each value with its ratio to the first; – for
/// none.
pub fn with_ratios(label: &str, values: &[Option<f64>], shown: impl Fn(f64) -> String) -> Vec<String> {
    let first = values[0].expect("a first value");
    let cell = |value: &Option<f64>| value.map_or("–".to_string(), |v| with_ratio(shown(v), v, first));
    std::iter::once(label.to_string()).chain(values.iter().map(cell)).collect()
}

/// A value and its ratio to the first.
pub fn with_ratio(shown: String, value: f64, first: f64) -> String {
    format!("{shown} (×{})", number(value / first))
}

/// 131072 as 131,072.
pub fn grouped(value: usize) -> String {
    let digits = value.to_string();
    let groups: Vec<&str> = digits.as_bytes().rchunks(3).rev().map(|group| std::str::from_utf8(group).unwrap()).collect();
    groups.join(",")
}
