// Tables of what has to occur to jobs, by kind of job: after how many different numbers of steps it
// has.

use crate::case::LENGTHS;
use crate::class::Class;
use crate::model::Job;
use crate::tally::{count_required, mark};
use std::collections::BTreeSet;

/// The kinds of job, rows of the tables.
const JOBS: [(&str, Class); 6] = [
    ("write status", Class::WriteStatus),
    ("program", Class::Program),
    ("small sector erase", Class::SmallSector),
    ("sector erase", Class::Sector),
    ("chip erase, 1 sector", Class::Chip),
    ("chip erase, more", Class::Chip),
];

/// The row of a write status.
pub const WRITE_STATUS: usize = 0;
/// The row of a chip erase on a part of more than one sector.
pub const LONGER: usize = 5;

/// How many numbers of steps a job of a row can have done; of the longer parts the longest counts.
pub fn all_steps(row: usize) -> usize {
    let length = if row == LONGER { LENGTHS[5] } else { LENGTHS[0] };
    JOBS[row].1.steps(length) as usize
}

/// The row of a job over a memory length.
fn row_of(job: &Job, length: usize) -> usize {
    let class = Class::of(job);
    if class == Class::Chip && length > LENGTHS[0] {
        return LONGER;
    }
    JOBS.iter().position(|(_, known)| *known == class).expect("a job of the list")
}

/// The numbers of steps after which each thing of a list has occurred, by kind of job.
pub struct JobTable {
    names: &'static [&'static str],
    seen: Vec<Vec<BTreeSet<u32>>>,
}

impl JobTable {
    /// Nothing of a list has occurred yet.
    pub fn new(names: &'static [&'static str]) -> JobTable {
        JobTable { names, seen: vec![vec![BTreeSet::new(); names.len()]; JOBS.len()] }
    }

    /// Takes note of one of the list that has occurred to a job after so many steps.
    pub fn saw(&mut self, name: &str, job: &Job, length: usize, steps: u32) {
        let column = self.names.iter().position(|known| *known == name);
        self.seen[row_of(job, length)][column.expect("a name of the list")].insert(steps);
    }

    /// Prints the table, given how many numbers of steps each cell has to have, and gives the number
    /// of those that have too few, or have some and should not.
    pub fn report(&self, wanted: fn(usize, &str) -> usize) -> usize {
        let head: String = self.names.iter().map(|name| format!("{name:>10}")).collect();
        println!("{:24}{head}", "");
        let mut faults = 0;
        for (row, ((job, _), cells)) in JOBS.iter().zip(&self.seen).enumerate() {
            print!("{job:24}");
            for (name, steps) in self.names.iter().zip(cells) {
                faults += print_cell(steps.len(), wanted(row, name));
            }
            println!();
        }
        faults
    }
}

/// Prints how many numbers of steps a cell has of how many, and gives 1 if it is not as it should be.
fn print_cell(seen: usize, wanted: usize) -> usize {
    count_required(wanted > 0);
    let bad = seen < wanted || (wanted == 0 && seen > 0);
    let cell = if wanted == 0 { "-".to_string() } else { format!("{seen}/{wanted}") };
    print!("{:>10}", cell + mark(bad));
    usize::from(bad)
}
