//! Tables in Markdown.

/// Prints a heading and the names of the columns.
pub fn head(title: &str, columns: &[&str]) {
    println!("\n### {title}\n\n| {} |", columns.join(" | "));
    println!("|---{}|", "|---:".repeat(columns.len() - 1));
}

pub fn row(cells: &[String]) {
    println!("| {} |", cells.join(" | "));
}

/// A time in microseconds.
pub fn micros(value: f64) -> String {
    match value {
        0.0..0.1 => format!("{value:.3}"),
        0.1..100.0 => format!("{value:.2}"),
        _ => format!("{value:.0}"),
    }
}

/// A quotient; a dash if it was not measured.
pub fn times(value: impl Into<Option<f64>>) -> String {
    match value.into() {
        None => "-".to_string(),
        Some(value) if value.abs() < 10.0 => format!("{value:.2}"),
        Some(value) => format!("{value:.0}"),
    }
}

/// A number of instructions; a dash if it was not counted.
pub fn count(value: Option<f64>) -> String {
    value.map_or("-".to_string(), |value| format!("{value:.0}"))
}
