// Makes a failing case smaller while it still fails.

use crate::bench::Bench;
use crate::case::{Case, Content, Start, Step, LENGTHS};
use crate::clock::{seen_events, WENT_BACK};
use crate::event::{events_of, kind, script_of, Event};
use crate::image::Edit;
use crate::margins::{Allowances, Report, KINDS, NO_JOBS};
use crate::model::{Chip, Job, JobKind};
use std::time::{Duration, Instant};

/// A failing case on its way to a smaller one.
struct Shrinker<'a, 'b> {
    bench: &'a mut Bench<'b>,
    case: Case,
    /// When no more is tried.
    end: Instant,
}

/// The smallest case found in some time that fails as the given one does, and its difference.
pub fn shrink(bench: &mut Bench, case: Case, patience: Duration) -> (Case, Option<String>) {
    let Some((steps, _)) = bench.replay(&case) else { return (case, None) };
    let mut shrinker = Shrinker { bench, case, end: Instant::now() + patience };
    shrinker.case.steps.truncate(steps);
    while shrinker.round() {}
    let Shrinker { bench, case, .. } = shrinker;
    let difference = bench.replay(&case).map(|(_, difference)| difference);
    (case, difference)
}

impl Shrinker<'_, '_> {
    /// Whether the time is over.
    fn tired(&self) -> bool {
        Instant::now() > self.end
    }

    /// Takes a changed case if it still fails, without the steps after its difference.
    fn keep(&mut self, changed: Case) -> bool {
        if self.tired() {
            return false;
        }
        let failed = self.bench.replay(&changed);
        if let Some((steps, _)) = &failed {
            self.case = changed;
            self.case.steps.truncate(*steps);
        }
        failed.is_some()
    }

    /// One round of every way to make the case smaller; says whether any did.
    fn round(&mut self) -> bool {
        let mut smaller = self.delete_steps();
        for number in (0..self.case.steps.len()).rev() {
            smaller |= self.shrink_step(number);
        }
        smaller | self.simplify_start()
    }

    /// Deletes rows of steps, long rows first.
    fn delete_steps(&mut self) -> bool {
        let mut smaller = false;
        let mut row = self.case.steps.len();
        while row > 0 && !self.tired() {
            let mut at = self.case.steps.len().saturating_sub(row);
            loop {
                let mut changed = self.case.clone();
                let end = (at + row).min(changed.steps.len());
                changed.steps.drain(at.min(end)..end);
                smaller |= at < end && self.keep(changed);
                if at == 0 {
                    break;
                }
                at = at.saturating_sub(row);
            }
            row /= 2;
        }
        smaller
    }

    /// Tries the case with another step in one place.
    fn try_step(&mut self, number: usize, step: Step) -> bool {
        if number >= self.case.steps.len() || self.case.steps[number] == step {
            return false;
        }
        let mut changed = self.case.clone();
        changed.steps[number] = step;
        self.keep(changed)
    }

    /// Makes one step smaller.
    fn shrink_step(&mut self, number: usize) -> bool {
        match self.case.steps.get(number).cloned() {
            Some(Step::Event { event, lent, length }) => {
                let plain = Step::Event { event, lent: false, length };
                let mut changes = vec![plain];
                for event in smaller_events(event) {
                    changes.push(Step::Event { event, lent, length });
                }
                changes.into_iter().any(|step| self.try_step(number, step))
            }
            Some(Step::Run { .. }) => {
                self.run_to_events(number)
                    || self.plainer_run(number)
                        | self.delete_from_run(number)
                        | self.shrink_run(number)
            }
            Some(Step::Report(report)) => {
                let plainer = plainer_reports(&report).into_iter();
                plainer.map(Step::Report).any(|step| self.try_step(number, step))
            }
            Some(Step::Lend(area)) => {
                let smaller = smaller_areas(&area).into_iter();
                smaller.map(Step::Lend).any(|step| self.try_step(number, step))
            }
            Some(Step::Script(asked, used)) => {
                let plainer = asked.plainer().into_iter();
                let mut steps = plainer.map(|asked| Step::Script(asked, used));
                steps.any(|step| self.try_step(number, step))
            }
            _ => false,
        }
    }

    /// Writes the ticks of a run's stamps out, or has the stamps begin at 0, and makes it a plain one
    /// or its allowances smaller.
    fn plainer_run(&mut self, number: usize) -> bool {
        let Some(Step::Run { script, .. }) = self.case.steps.get(number) else { return false };
        let scripts = plainer_scripts(script);
        let mut smaller = scripts.into_iter().any(|script| self.try_script(number, script));
        smaller |= self.try_allowances(number, |_| None);
        for place in 0..KINDS.len() {
            smaller |= self.try_allowances(number, |mut numbers| {
                numbers[place] = 0;
                Some(numbers)
            });
        }
        smaller
    }

    /// Tries a run that has allowances with others, or with none.
    fn try_allowances(
        &mut self,
        number: usize,
        others: impl Fn(Allowances) -> Option<Allowances>,
    ) -> bool {
        let Some(Step::Run { script, spare, length, allowances: Some(numbers) }) =
            self.case.steps.get(number).cloned()
        else {
            return false;
        };
        let allowances = others(numbers);
        self.try_step(number, Step::Run { script, spare, length, allowances })
    }

    /// Puts single events in the place of a run.
    fn run_to_events(&mut self, number: usize) -> bool {
        let Step::Run { script, length, .. } = &self.case.steps[number] else { return false };
        let single = |event| Step::Event { event, lent: false, length: *length };
        let seen = seen_events(&events_of(script).0);
        if seen.len() > 2_000 {
            return false;
        }
        let events: Vec<Step> = seen.into_iter().map(single).collect();
        let mut changed = self.case.clone();
        changed.steps.splice(number..=number, events);
        self.keep(changed)
    }

    /// Deletes rows of events from a run's script, long rows first.
    fn delete_from_run(&mut self, number: usize) -> bool {
        let mut smaller = false;
        let Some(mut row) = self.script_pieces(number).map(|pieces| pieces.len()) else {
            return false;
        };
        while row > 0 && !self.tired() {
            let mut at = 0;
            while let Some(pieces) = self.script_pieces(number).filter(|pieces| at < pieces.len()) {
                let end = (at + row).min(pieces.len());
                let kept = [&pieces[..at], &pieces[end..]].concat().concat();
                if self.try_script(number, kept) {
                    smaller = true;
                } else {
                    at += row;
                }
            }
            row /= 2;
        }
        smaller
    }

    /// The script of a run in pieces: its events, and each byte from its first bad event on; none
    /// when the step is no run or the time is over.
    fn script_pieces(&self, number: usize) -> Option<Vec<Vec<u8>>> {
        let Step::Run { script, .. } = self.case.steps.get(number)? else { return None };
        if self.tired() {
            return None;
        }
        let (events, rest) = events_of(script);
        let mut pieces: Vec<_> = events.iter().map(|event| script_of(&[*event])).collect();
        pieces.extend(rest.iter().map(|byte| vec![*byte]));
        Some(pieces)
    }

    /// Tries a run with another script.
    fn try_script(&mut self, number: usize, script: Vec<u8>) -> bool {
        let Some(Step::Run { spare, length, allowances, .. }) = self.case.steps.get(number) else {
            return false;
        };
        let (spare, length, allowances) = (*spare, *length, *allowances);
        self.try_step(number, Step::Run { script, spare, length, allowances })
    }

    /// Makes the numbers in a run's script smaller, and its room the exact one or a byte short.
    fn shrink_run(&mut self, number: usize) -> bool {
        let Some(Step::Run { script, spare, length, allowances }) =
            self.case.steps.get(number).cloned()
        else {
            return false;
        };
        let nearer = [0, -1_i64].into_iter().filter(|nearer| nearer.abs() < spare.abs());
        let run = |spare| Step::Run { script: script.clone(), spare, length, allowances };
        let mut smaller = nearer.map(run).any(|step| self.try_step(number, step));
        let mut at = 0;
        while let Some(pieces) = self.script_pieces(number).filter(|pieces| at < pieces.len()) {
            let event = events_of(&pieces[at]).0.first().copied();
            smaller |= event.map_or(Vec::new(), smaller_events).into_iter().any(|event| {
                let script =
                    [pieces[..at].concat(), script_of(&[event]), pieces[at + 1..].concat()];
                self.try_script(number, script.concat())
            });
            at += 1;
        }
        smaller
    }

    /// Makes the start plainer: a blank and short memory, a fresh state, a shorter SFDP area.
    fn simplify_start(&mut self) -> bool {
        let mut changes = vec![self.case.clone(), self.case.clone()];
        changes[0].content = Content::Blank;
        changes[1].start = Start::Fresh(0);
        let plainer = plainer_starts(&self.case.start).into_iter();
        changes.extend(plainer.map(|start| Case { start, ..self.case.clone() }));
        changes.extend(LENGTHS.map(|length| Case { length, ..self.case.clone() }));
        let areas = smaller_areas(&self.case.area).into_iter();
        changes.extend(areas.map(|area| Case { area, ..self.case.clone() }));
        let new = |case: &Case, old: &Case| {
            (case.content, &case.start, &case.area) != (old.content, &old.start, &old.area)
                || case.length < old.length
        };
        changes.into_iter().any(|changed| new(&changed, &self.case) && self.keep(changed))
    }
}

/// Starts of the same sort that are plainer, if only in one thing.
fn plainer_starts(start: &Start) -> Vec<Start> {
    match start {
        Start::Fresh(status) => {
            [0x80, 0x20, 0x10, 0x08, 0x04].map(|bit| Start::Fresh(status & !bit)).to_vec()
        }
        Start::Lent(chip, edit @ (Edit::None | Edit::Free(_))) => plainer_lent(chip, edit),
        // The edits that are not legal go with a model's chip that is not, so they are left alone.
        Start::Lent(..) => Vec::new(),
    }
}

/// Lent starts with a plainer chip, or without the edit.
fn plainer_lent(chip: &Chip, edit: &Edit) -> Vec<Start> {
    let chips = [vec![chip.clone()], plainer_chips(chip)].concat();
    let mut starts = Vec::new();
    for edit in [&Edit::None, edit] {
        let lent = |chip: &Chip| Start::Lent(Box::new(chip.clone()), edit.clone());
        starts.extend(chips.iter().map(lent));
    }
    starts
}

/// The first bytes of an SFDP area, the fewest first.
fn smaller_areas(area: &[u8]) -> Vec<Vec<u8>> {
    let mut lengths = vec![0, area.len() / 2, area.len() / 8 * 7, area.len().saturating_sub(1)];
    lengths.retain(|length| *length < area.len());
    lengths.dedup();
    lengths.into_iter().map(|length| area[..length].to_vec()).collect()
}

/// Scripts of the same events without stamps, their ticks written out, and with the first stamp at
/// 0 and the others as far from it as they were.
fn plainer_scripts(script: &[u8]) -> Vec<Vec<u8>> {
    let (mut events, rest) = events_of(script);
    let first = events.iter().find(|event| event.0 == kind::STAMP).map(|event| event.1 as u16);
    let Some(first) = first else { return Vec::new() };
    let without = script_of(&seen_events(&events));
    for event in events.iter_mut().filter(|event| event.0 == kind::STAMP) {
        event.1 = u64::from((event.1 as u16).wrapping_sub(first));
    }
    [without, script_of(&events)].map(|events| [&events, rest].concat()).to_vec()
}

/// Reports with one line made as without a job.
fn plainer_reports(report: &Report) -> Vec<Report> {
    let full = (0..KINDS.len()).filter(|place| report[*place] != NO_JOBS);
    let plainer = full.map(|place| {
        let mut report = *report;
        report[place] = NO_JOBS;
        report
    });
    plainer.collect()
}

/// Events with the same kind and a smaller body, the smallest first; of a stamp also the least that
/// is behind 0, and the one before it that 0 is not behind.
fn smaller_events((kind, body): Event) -> Vec<Event> {
    let mut bodies = vec![0, 1, body / 2, body.saturating_sub(1)];
    if kind == kind::STAMP {
        let half = u64::from(WENT_BACK);
        bodies = vec![0, 1, half, half + 1, body / 2, body.saturating_sub(1)];
    }
    bodies.retain(|smaller| *smaller < body);
    bodies.dedup();
    bodies.into_iter().map(|body| (kind, body)).collect()
}

/// Chips with one part of a lent chip made as in a fresh state, or plain.
fn plainer_chips(chip: &Chip) -> Vec<Chip> {
    let fresh = Chip::fresh(0);
    let changes: [fn(&mut Chip, &Chip); 12] = [
        |chip, fresh| chip.frame = fresh.frame.clone(),
        |chip, fresh| chip.frame.load = fresh.frame.load,
        |chip, _| chip.frame.address = 0,
        |chip, _| chip.level = 0,
        |chip, _| chip.tb = false,
        |chip, _| chip.srwp = false,
        |chip, _| chip.wp_high = true,
        |chip, _| chip.armed = false,
        |chip, _| chip.waiting = false,
        |chip, _| chip.job = None,
        |chip, _| {
            if let Some(Job { kind: JobKind::Program(load), .. }) = &mut chip.job {
                *load = [0; 256];
            }
        },
        |chip, _| {
            if let Some(job) = &mut chip.job {
                job.place = 0;
            }
        },
    ];
    let mut plainer = Vec::new();
    for change in changes {
        let mut changed = chip.clone();
        change(&mut changed, &fresh);
        if changed != *chip {
            plainer.push(changed);
        }
    }
    plainer
}
