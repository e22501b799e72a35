//! Tables of text, in a form that is also one in Markdown.

/// Prints a table: the first row is its head. The first column stands left, the others right.
pub fn print_table(rows: &[Vec<String>]) {
    let columns = rows[0].len();
    let widths: Vec<usize> = (0..columns)
        .map(|i| {
            rows.iter()
                .map(|row| row[i].chars().count())
                .max()
                .unwrap_or(0)
        })
        .collect();
    for (index, row) in rows.iter().enumerate() {
        let cells: Vec<String> = (0..columns).map(|i| cell(i, &row[i], widths[i])).collect();
        println!("| {} |", cells.join(" | "));
        if index == 0 {
            let lines: Vec<String> = (0..columns).map(|i| rule(i, widths[i])).collect();
            println!("|{}|", lines.join("|"));
        }
    }
}

fn cell(column: usize, text: &str, width: usize) -> String {
    if column == 0 {
        format!("{text:<width$}")
    } else {
        format!("{text:>width$}")
    }
}

/// The line under a column's head; it says on which side the column stands.
fn rule(column: usize, width: usize) -> String {
    if column == 0 {
        "-".repeat(width + 2)
    } else {
        format!("{}:", "-".repeat(width + 1))
    }
}

/// A row of texts.
pub fn row(cells: &[&str]) -> Vec<String> {
    cells.iter().map(|cell| cell.to_string()).collect()
}

/// A time in nanoseconds, with three digits and a unit.
pub fn time_text(nanoseconds: f64) -> String {
    let (number, unit) = if nanoseconds < 1e3 {
        (nanoseconds, "ns")
    } else if nanoseconds < 1e6 {
        (nanoseconds / 1e3, "us")
    } else {
        (nanoseconds / 1e6, "ms")
    };
    if number < 9.995 {
        format!("{number:.2} {unit}")
    } else if number < 99.95 {
        format!("{number:.1} {unit}")
    } else {
        format!("{number:.0} {unit}")
    }
}

/// A whole number with commas.
pub fn count_text(number: u64) -> String {
    let digits = number.to_string();
    let mut text = String::new();
    for (index, digit) in digits.chars().enumerate() {
        if index > 0 && (digits.len() - index).is_multiple_of(3) {
            text.push(',');
        }
        text.push(digit);
    }
    text
}

#[cfg(test)]
mod tests {
    use super::*;

    #[test]
    fn numbers_in_words() {
        assert_eq!(count_text(5), "5");
        assert_eq!(count_text(5_419_008), "5,419,008");
        assert_eq!(count_text(100_000), "100,000");
        assert_eq!(time_text(1234.0), "1.23 us");
        assert_eq!(time_text(45_678_000.0), "45.7 ms");
    }
}
