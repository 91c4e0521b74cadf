//! Markdown tables that can be read as they stand.

/// The head of a table: the first column is text, the others are numbers.
pub fn head(title: &str, note: &str, text: &str, width: usize, numbers: &[&str]) {
    println!("\n### {title}\n\n{note}\n");
    print!("| {text:<width$} |");
    for name in numbers {
        print!(" {name:>9} |");
    }
    println!();
    print!("|-{}-|", "-".repeat(width));
    for name in numbers {
        print!("-{}:|", "-".repeat(name.chars().count().max(9)));
    }
    println!();
}

/// A row of such a table, its numbers already written; cells that are missing stay empty.
pub fn row(text: &str, width: usize, heads: &[&str], numbers: &[String]) {
    print!("| {text:<width$} |");
    for (place, head) in heads.iter().enumerate() {
        let width = head.chars().count().max(9);
        print!(" {:>width$} |", numbers.get(place).map_or("", String::as_str));
    }
    println!();
}

/// Nanoseconds: a whole number from 100 on.
pub fn nanoseconds(number: f64) -> String {
    if number.abs() < 99.5 {
        format!("{number:.2}")
    } else {
        format!("{number:.0}")
    }
}

pub fn ratio(engine: f64, second: f64) -> String {
    format!("{:.2}", engine / second)
}
