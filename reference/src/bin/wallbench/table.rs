//! Tables in Markdown.

/// A column: its name, and its cell for a thing and a number of tiles.
pub type Column<T> = (&'static str, fn(&T, f64) -> String);

/// A table, row by row.
pub struct Table(Vec<Vec<String>>);

impl Table {
    pub fn new(names: &[&str]) -> Table {
        Table(vec![names.iter().map(|name| name.to_string()).collect()])
    }

    pub fn row(&mut self, cells: Vec<String>) {
        self.0.push(cells);
    }

    pub fn print(&self) {
        for (index, cells) in self.0.iter().enumerate() {
            println!("| {} |", cells.join(" | "));
            if index == 0 {
                println!("|{}", "---|".repeat(cells.len()));
            }
        }
    }
}

/// A number with so many digits after the point and its thousands set apart, or word of its absence.
pub fn number(value: Option<f64>, digits: usize) -> String {
    let Some(value) = value else {
        return "not measured".into();
    };
    let text = format!("{value:.digits$}");
    let (whole, fraction) = text.split_once('.').unwrap_or((&text, ""));
    let mut apart = String::new();
    for (index, digit) in whole.chars().enumerate() {
        if index > 0 && (whole.len() - index) % 3 == 0 {
            apart.push(',');
        }
        apart.push(digit);
    }
    if digits > 0 {
        apart.push('.');
        apart.push_str(fraction);
    }
    apart
}

#[cfg(test)]
mod tests {
    use super::*;

    #[test]
    fn numbers_as_they_are_printed() {
        assert_eq!(number(Some(0.0), 0), "0");
        assert_eq!(number(Some(999.0), 0), "999");
        assert_eq!(number(Some(1_000.0), 0), "1,000");
        assert_eq!(number(Some(1_074_310_472.0), 0), "1,074,310,472");
        assert_eq!(number(Some(16.25), 1), "16.2");
        assert_eq!(number(Some(12_345.678), 2), "12,345.68");
        assert_eq!(number(None, 2), "not measured");
    }
}
