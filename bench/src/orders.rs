//! Orders, each delivered to a table with nothing after the mark, and then the mark that
//! brings it into the table: `rail_deliver` and `rail_checkpoint` beside the book of `second`.

use crate::kinds;
use crate::state::{check_all, instructions, listings, Job, Listing};

/// The listings that orders are delivered to.
const LISTINGS: [&str; 2] = ["one", "full"];

/// Prints the table, once both sides answer alike.
pub fn run() -> Result<(), String> {
    let listings: Vec<Listing> = listings()
        .into_iter()
        .filter(|listing| LISTINGS.contains(&listing.name))
        .collect();
    let titles: Vec<String> = listings
        .iter()
        .flat_map(|listing| {
            ["delivered", "marked"].map(|call| format!("{}: {call}", listing.label))
        })
        .collect();
    println!("| Order | Bytes | {} |", titles.join(" | "));
    println!("|---|{}", "---:|".repeat(1 + titles.len()));
    for (number, kind) in (1..).zip(kinds::all()) {
        let mut cells = Vec::new();
        for listing in &listings {
            for job in [
                Job::delivery(listing, number, &kind),
                Job::mark(listing, number, &kind),
            ] {
                check_all(&job)?;
                cells.push(instructions(listing, &job, 0)?.text());
            }
        }
        println!(
            "| {} | {} | {} |",
            kind.label,
            kind.order().len(),
            cells.join(" | ")
        );
    }
    println!();
    println!(
        "Instructions, proved / plain (ratio). Delivered: `rail_deliver` with no order after the mark, beside the same delivery to the book of \
         `second`. Marked: `rail_checkpoint` with that one order after the mark, beside the book's mark. The library establishes first that its \
         memory is well formed, which is most of a short call; a delivery only adds the order to the journal, and the mark changes the table. The \
         book changes its table at the delivery, and copies it whole at the mark. Counted by callgrind as under \"State calls\"."
    );
    Ok(())
}
