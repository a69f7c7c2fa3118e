// Tables in Markdown, and which rows fall short of their bar.

/// Prints a heading and the head of a table.
pub fn head(title: &str, columns: &[&str]) {
    println!("\n## {title}\n");
    row(columns);
    let numbers = "|---:".repeat(columns.len() - 1);
    println!("|---{numbers}|");
}

pub fn row<T: AsRef<str>>(cells: &[T]) {
    let cells: Vec<&str> = cells.iter().map(AsRef::as_ref).collect();
    println!("| {} |", cells.join(" | "));
}

/// A time or ratio: more digits where it is small.
pub fn figure(value: f64) -> String {
    match value {
        value if value < 10.0 => format!("{value:.2}"),
        value if value < 100.0 => format!("{value:.1}"),
        value => format!("{value:.0}"),
    }
}

/// The rows that fall short, by name.
#[derive(Default)]
pub struct Bars {
    missed: Vec<String>,
}

impl Bars {
    /// Holds a value against its bar: what the table says.
    pub fn hold(&mut self, name: &str, value: f64, bar: f64) -> &'static str {
        if value <= bar {
            return "yes";
        }
        self.missed.push(format!("{name} ({})", figure(value)));
        "**no**"
    }

    /// The benchmark's last line.
    pub fn verdict(&self) -> String {
        if self.missed.is_empty() {
            return "benchmark: bars met".into();
        }
        format!("benchmark: bars not met: {}", self.missed.join("; "))
    }
}
