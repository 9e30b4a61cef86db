//! Markdown tables: both sides and their ratio, a row per message or order.

/// What one job costs on each side.
#[derive(Clone, Copy)]
pub struct Cost {
    pub proved: f64,
    pub plain: f64,
}

impl Cost {
    /// Both sides and their ratio.
    pub fn text(self) -> String {
        let Self { proved, plain } = self;
        format!("{proved:.0} / {plain:.0} ({:.1})", proved / plain)
    }
}

/// Prints the header of a table of a job on messages, whose numbers have this unit.
pub fn print_header(job: &str, unit: &str) {
    println!("| Message | Bytes | {} |", titles(job, unit));
    println!("|---|{}", "---:|".repeat(4));
}

/// Prints a message's row, with that many digits after the point.
pub fn print_row(label: &str, bytes: usize, cost: Cost, digits: usize) {
    println!("| {label} | {bytes} | {} |", columns(cost, digits));
}

/// The titles of the three columns of a cost.
pub fn titles(name: &str, unit: &str) -> String {
    format!("{name}: proved ({unit}) | plain ({unit}) | ratio")
}

/// The three columns of a cost.
pub fn columns(cost: Cost, digits: usize) -> String {
    let Cost { proved, plain } = cost;
    let ratio = proved / plain;
    format!("{proved:.digits$} | {plain:.digits$} | {ratio:.2}")
}
