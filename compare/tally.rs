// Things that have to occur and how often they have, as lines and rows of the report.

use std::sync::atomic::{AtomicUsize, Ordering};

/// The cells that have to be filled, counted as they are printed.
static REQUIRED: AtomicUsize = AtomicUsize::new(0);

/// Counts a cell that is printed, if it has to be filled.
pub fn count_required(has_to_be: bool) {
    REQUIRED.fetch_add(usize::from(has_to_be), Ordering::Relaxed);
}

/// How many cells that have to be filled were printed.
pub fn required() -> usize {
    REQUIRED.load(Ordering::Relaxed)
}

/// The things of a list and how often each has occurred.
pub struct Tally {
    names: &'static [&'static str],
    counts: Vec<u64>,
}

impl Tally {
    /// None of a list has occurred yet.
    pub fn new(names: &'static [&'static str]) -> Tally {
        Tally { names, counts: vec![0; names.len()] }
    }

    /// Takes note of one of the list, if it has occurred.
    pub fn saw(&mut self, name: &str, occurred: bool) {
        if occurred {
            let number = self.names.iter().position(|known| *known == name);
            self.counts[number.expect("a name of the list")] += 1;
        }
    }

    /// Prints a line each and gives the number of those that have not occurred.
    pub fn report(&self) -> usize {
        self.names.iter().zip(&self.counts).map(|(name, count)| print_line(name, *count)).sum()
    }
}

/// The mark of a cell that is not as it should be.
pub fn mark(bad: bool) -> &'static str {
    if bad {
        "!"
    } else {
        ""
    }
}

/// Prints a count that must not be 0 and gives 1 if it is.
pub fn print_line(name: &str, count: u64) -> usize {
    print_seen(name, count as usize, 1)
}

/// Prints how many different ones have been seen and gives 1 if they are fewer than there are.
pub fn print_seen(name: &str, seen: usize, all: usize) -> usize {
    count_required(true);
    println!("  {name:48}{seen:>8}{}", mark(seen < all));
    usize::from(seen < all)
}

/// Prints a row of counts and gives the number of those that are not as they should be.
pub fn print_cells(counts: &[u64], can: impl Fn(usize) -> bool) -> usize {
    let mut faults = 0;
    for (column, count) in counts.iter().enumerate() {
        let bad = can(column) != (*count > 0);
        count_required(can(column));
        let cell = if can(column) || bad { count.to_string() } else { "-".to_string() };
        print!("{:>8}", cell + mark(bad));
        faults += usize::from(bad);
    }
    println!();
    faults
}

/// Prints the numbers at the head of a table's columns.
pub fn print_head(numbers: &[u8]) {
    let head: String = numbers.iter().map(|number| format!("{number:>8}")).collect();
    println!("{:24}{head}", "");
}

/// Prints the names at the head of a table's columns.
pub fn print_names(names: &[&str]) {
    let head: String = names.iter().map(|name| format!("{name:>8}")).collect();
    println!("{:24}{head}", "");
}
