//! A window's lookup by the place that the search finds it in, with 32 windows listed: `rail_window` beside the book of `second`.

use crate::state::{check_all, instructions, listings, searches};

/// Prints the table, once both sides answer alike.
pub fn run() -> Result<(), String> {
    let full = listings().into_iter().find(|one| one.name == "full");
    let listing = full.ok_or("no full table")?;
    println!(
        "| Window looked up, of 32 listed | No order in the journal | 8 orders in the journal |"
    );
    println!("|---|---:|---:|");
    for job in searches(&listing) {
        check_all(&job)?;
        let none = instructions(&listing, &job, 0)?.text();
        let eight = instructions(&listing, &job, 8)?.text();
        println!("| {} | {none} | {eight} |", job.label);
    }
    println!();
    println!(
        "Instructions, proved / plain (ratio), of `rail_window` on the full table, beside the same lookup in the book of `second`. The number is the \
         place, counted from 1; the absent id is refused with 9. Each journaled order is an update of the window in place 31, which is searched too. \
         Counted by callgrind as under \"State calls\"."
    );
    Ok(())
}
