//! The figures kept: what a delivery takes on a full table whose windows have visibility
//! rectangles, since each call validates the stored figure of every window; and what the
//! lookup of the desktop state takes, which follows every window through the journal.

use crate::kinds;
use crate::state::{check_all, instructions, named, with_rectangles, Job, Listing, JOURNALS};

/// The orders in the journal at a delivery.
const JOURNAL: usize = 8;

/// What a delivery may take, by the rectangles of each window.
const AIMS: [(u16, f64); 3] = [(1, 11_000.0), (4, 16_000.0), (16, 70_000.0)];

/// Prints the tables. It fails where an aim is missed.
pub fn run() -> Result<(), String> {
    let listings = with_rectangles();
    let most = deliveries(&listings)?;
    println!();
    let are_met = aims(&listings, &most);
    println!();
    lookups(&listings)?;
    println!();
    println!("Instructions per call, counted by callgrind inside the entry point with all that it calls; deliveries with {JOURNAL} orders in the journal.");
    if !are_met {
        return Err("an aim is missed".into());
    }
    Ok(())
}

/// Prints the deliveries. The dearest of each listing.
fn deliveries(listings: &[Listing]) -> Result<Vec<f64>, String> {
    print_head("Delivery | Bytes", "|---|---:|", listings);
    let mut most = vec![0.0_f64; listings.len()];
    for (number, kind) in (1..).zip(kinds::all()) {
        let mut cells = Vec::new();
        for (listing, most) in listings.iter().zip(&mut most) {
            let job = Job::delivery(listing, number, &kind);
            let cost = instructions(listing, &job, JOURNAL)?;
            *most = most.max(cost.proved);
            cells.push(format!("{:.0}", cost.proved));
        }
        let (bytes, cells) = (kind.order().len(), cells.join(" | "));
        println!("| {} | {bytes} | {cells} |", kind.label);
    }
    Ok(most)
}

/// Prints the dearest delivery of each listing beside its aim. Whether all are met.
fn aims(listings: &[Listing], most: &[f64]) -> bool {
    println!("| Rectangles of each window | Aim: under | The most measured |");
    println!("|---:|---:|---:|");
    let mut are_met = true;
    for (listing, most) in listings.iter().zip(most) {
        let count = listing.apart().unwrap_or_default();
        let Some((_, aim)) = AIMS.iter().find(|(of, _)| *of == count) else {
            println!("| {count} | | {most:.0} |");
            continue;
        };
        let missed = if most < aim { "" } else { ", missed" };
        println!("| {count} | {aim:.0} | {most:.0}{missed} |");
        are_met &= most < aim;
    }
    are_met
}

/// Prints the lookups of the desktop state, once both sides answer alike.
fn lookups(listings: &[Listing]) -> Result<(), String> {
    let title = "Lookup of the desktop state, so many orders in the journal";
    print_head(title, "|---:|", listings);
    let job = |listing| named(listing, "desktop").ok_or("no lookup of the desktop state");
    for listing in listings {
        check_all(&job(listing)?)?;
    }
    for orders in JOURNALS {
        let mut cells = Vec::new();
        for listing in listings {
            let cost = instructions(listing, &job(listing)?, orders)?;
            cells.push(format!("{:.0}", cost.proved));
        }
        println!("| {orders} | {} |", cells.join(" | "));
    }
    Ok(())
}

/// A table's head: its first columns, then one for each listing.
fn print_head(first: &str, rule: &str, listings: &[Listing]) {
    let title = |listing: &Listing| {
        let count = listing.apart().unwrap_or_default();
        format!("Rectangles of each window: {count}")
    };
    let titles: Vec<String> = listings.iter().map(title).collect();
    println!("| {first} | {} |", titles.join(" | "));
    println!("{rule}{}", "---:|".repeat(listings.len()));
}
