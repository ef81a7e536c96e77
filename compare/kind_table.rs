// Tables of what has to occur, by kind of job as a report has them.

use crate::class::Class;
use crate::margins::{place_of, KINDS};
use crate::tally::print_cells;

/// The heads of the columns, in the order of a report's lines.
const HEADS: [&str; KINDS.len()] = ["status", "program", "small", "sector", "chip"];

/// The things of a list and how often each has occurred to jobs of each kind.
pub struct KindTable {
    names: &'static [&'static str],
    counts: Vec<[u64; KINDS.len()]>,
}

impl KindTable {
    /// Nothing of a list has occurred yet.
    pub fn new(names: &'static [&'static str]) -> KindTable {
        KindTable { names, counts: vec![[0; KINDS.len()]; names.len()] }
    }

    /// Takes note of one of the list, if it has occurred to a job of a kind.
    pub fn saw(&mut self, name: &str, class: Class, occurred: bool) {
        self.saw_at(name, place_of(class), occurred);
    }

    /// Takes note of one of the list, if it has occurred to the line or the allowance of a place.
    pub fn saw_at(&mut self, name: &str, place: usize, occurred: bool) {
        if occurred {
            let row = self.names.iter().position(|known| *known == name);
            self.counts[row.expect("a name of the list")][place] += 1;
        }
    }

    /// Prints the table, given what can occur to a write status, and gives the number of cells that
    /// are empty, or filled and should not be.
    pub fn report(&self, to_status: impl Fn(&str) -> bool) -> usize {
        let head: String = HEADS.iter().map(|name| format!("{name:>8}")).collect();
        println!("{:32}{head}", "");
        let mut faults = 0;
        for (name, counts) in self.names.iter().zip(&self.counts) {
            print!("  {name:30}");
            faults += print_cells(counts, |place| place > 0 || to_status(name));
        }
        faults
    }
}
