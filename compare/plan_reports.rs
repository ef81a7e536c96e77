// The planned cases about margin reports: each kind of job with every margin, every way of its ticks
// and every end, lines that are written out, reports that are carried on, and what is refused. What
// is due is written out here, or reckoned from the rule: allowance less ticks used.

use crate::areas;
use crate::case::{Content, Start, Step, LENGTHS};
use crate::class::{Class, LONG_JOBS};
use crate::event::LONGEST;
use crate::margins::{place_of, report_difference, Allowances, Report, EMPTY, KINDS, LARGEST};
use crate::model::{Chip, Line};
use crate::plan_stamps::script_of_lines;
use crate::session::{Outcome, Session};
use crate::states;

/// Lines that begin a job of a class.
fn begin(class: Class) -> &'static str {
    match class {
        Class::WriteStatus => "frame 06\nframe 01 00",
        Class::Program => "frame 06\nframe 02 00 00 00 5A",
        Class::SmallSector => "frame 06\nframe 20 00 00 00",
        Class::Sector => "frame 06\nframe D8 00 00 00",
        Class::Chip => "frame 06\nframe 60",
    }
}

/// The line that begins a job of a class where WEN is 1, in suspension too.
fn frame(class: Class) -> &'static str {
    begin(class).trim_start_matches("frame 06\n")
}

/// The steps of a job of a class on the one-sector part.
fn steps(class: Class) -> u32 {
    class.steps(LENGTHS[0])
}

/// A line of a report.
const fn line(count: u32, smallest: i32, largest: i32) -> Line {
    Line { count, smallest, largest }
}

/// A report with one line that has jobs.
fn report_of(class: Class, line: Line) -> Report {
    let mut report = EMPTY;
    report[place_of(class)] = line;
    report
}

/// Ticks that a job of so many steps does its last one with, written in every way: as single ticks,
/// as one event, as two, and as stamps; the last three with more ticks than it uses as well.
fn ways_of_ticks(steps: u32) -> Vec<String> {
    let stamps = |more: u32| {
        let last = (65_530 + steps + more) % 65_536;
        format!("stamp 65530\nstamp {last}")
    };
    vec![
        format!("repeat {steps} tick"),
        format!("ticks {steps}"),
        stamps(0),
        format!("ticks {}", steps + 7),
        format!("tick\nticks {steps}"),
        stamps(9),
        format!("select\nsend 05\nticks {steps}\ndeselect"),
        format!("select\nsend 05\nstamp 9\nstamp {}\nsend 00\ndeselect", 9 + steps + 1),
    ]
}

/// Lines with ticks of every sort while a job that can be suspended is there, and how many of them
/// it idles in.
const DELAYED: [(&str, u32); 4] = [
    ("frame B0\ntick\nticks 100\nframe 30", 100),
    ("frame B0\nticks 40\nstamp 10\nstamp 60\ntick\nframe 30", 90),
    (
        "tick\nframe B0\nstamp 0\nstamp 32767\nselect\nsend 05\ntick\nsend 00\ndeselect\nframe 30",
        32_767,
    ),
    (
        "frame B0\nstamp 7\nselect\nsend B0\nstamp 8\ndeselect\nticks 65535\nframe 30\n\
         frame B0\nticks 3\nframe 30",
        65_537,
    ),
];

/// A line that is handed in, the margin of a job, if there is one, and the line after it.
type Joined = (Line, Option<i32>, Line);

/// What becomes of a line: without a job, and with one whose margin is inside the two, below or
/// above.
const JOINED: [Joined; 20] = [
    (line(0, 0, 0), None, line(0, 0, 0)),
    (line(0, 7, -7), None, line(0, 0, 0)),
    (line(0, 7, -7), Some(-1), line(1, -1, -1)),
    (line(0, -9, 9), Some(2), line(1, 2, 2)),
    (line(0, i32::MIN, i32::MAX), Some(0), line(1, 0, 0)),
    (line(5, 3, 9), None, line(5, 3, 9)),
    (line(5, 3, 9), Some(-1), line(6, -1, 9)),
    (line(5, 3, 9), Some(20), line(6, 3, 20)),
    (line(5, 3, 9), Some(5), line(6, 3, 9)),
    (line(u32::MAX - 1, 3, 9), Some(5), line(u32::MAX, 3, 9)),
    (line(u32::MAX, 3, 9), None, line(u32::MAX, 3, 9)),
    (line(u32::MAX, 3, 9), Some(5), line(u32::MAX, 3, 9)),
    (line(u32::MAX, 3, 9), Some(-1), line(u32::MAX, -1, 9)),
    (line(u32::MAX, 3, 9), Some(20), line(u32::MAX, 3, 20)),
    (line(3, 10, -10), None, line(3, 10, -10)),
    (line(3, 10, -10), Some(0), line(4, 0, 0)),
    (line(3, 10, -10), Some(20), line(4, 10, 20)),
    (line(2, i32::MIN, i32::MAX), Some(5), line(3, i32::MIN, i32::MAX)),
    (line(2, i32::MAX, i32::MIN), Some(5), line(3, 5, 5)),
    (line(1, 0, 0), Some(0), line(2, 0, 0)),
];

/// A report that a refused run has to leave: margins of a count of 0, crossed ones, and both ends.
const ODD: Report = [
    line(0, 7, -7),
    line(3, 50, -50),
    line(u32::MAX, i32::MIN, i32::MAX),
    line(0, i32::MAX, i32::MIN),
    line(1, -4, 4),
];

/// Scripts by what they are refused by, the bytes of room beyond what they ask for, and the memory
/// length if it is not the case's.
type Otherwise = (u8, &'static [u8], i64, Option<usize>);

/// What comes after 18; 2 and 13 need a case of their own.
const OTHERWISE: [Otherwise; 8] = [
    (0, &[1, 2, 6, 3, 0], 0, None),
    (1, &[1, 2, 6, 3, 0], 0, Some(3 * Chip::SECTOR)),
    (3, &[4; LONGEST + 1], 0, None),
    (4, &[4, 2], 0, None),
    (5, &[4, 0x0A], 0, None),
    (6, &[4, 6, 2], 0, None),
    (7, &[1, 2, 6, 3, 0], -1, None),
    (8, &[9, 0, 5, 9, 0, 4], 0, None),
];

impl Session<'_> {
    /// Reports of each kind of job, of lines that are written out, and of runs that are refused.
    pub fn reports(&mut self) -> Outcome {
        for (_, class) in KINDS {
            self.margins_of(class)?;
            self.crossing_jobs(class)?;
            self.dropped_jobs(class)?;
            self.joined_lines(class)?;
        }
        for class in LONG_JOBS {
            self.delayed_jobs(class)?;
            self.jobs_in_suspension(class)?;
        }
        self.many_jobs()?;
        self.carried_report()?;
        self.refused_reports()
    }

    /// Runs lines with allowances and holds the report after them to the one that is due.
    fn report_run(&mut self, lines: &str, allowances: Allowances, due: &Report) -> Outcome {
        let answer = self.run_form(script_of_lines(lines), 0, Some(allowances))?;
        self.hold_refusal(&answer, 0, 0)?;
        self.hold_report(due)
    }

    /// Holds the report that is carried to one that is written out.
    fn hold_report(&self, due: &Report) -> Outcome {
        match report_difference("written out, ", due, &self.bench.report) {
            Some(words) => Err(self.failure(words)),
            None => Ok(()),
        }
    }

    /// A job of a class that is ended in every way, with allowances about what it uses and at the
    /// ends of what is taken.
    fn margins_of(&mut self, class: Class) -> Outcome {
        let steps = steps(class);
        for ticks in ways_of_ticks(steps) {
            self.open_fresh(LENGTHS[0], 0)?;
            for allowance in [steps, steps + 1, steps - 1, 0, LARGEST] {
                let mut allowances = [777; 5];
                allowances[place_of(class)] = allowance;
                let margin = allowance as i32 - steps as i32;
                self.step(Step::Report(EMPTY))?;
                let due = report_of(class, line(1, margin, margin));
                self.report_run(&format!("{}\n{ticks}", begin(class)), allowances, &due)?;
            }
            self.close()?;
        }
        Ok(())
    }

    /// A job of a class that crosses the ends of runs counts in none of them, be it suspended there;
    /// one in the last of them does.
    fn crossing_jobs(&mut self, class: Class) -> Outcome {
        let margin = 100 - steps(class) as i32;
        let counted = report_of(class, line(1, margin, margin));
        let whole = format!("ticks 65535\n{}\nticks 65535", begin(class));
        self.open_fresh(LENGTHS[0], 0)?;
        for stands in ["", "frame B0", "frame B0\ntick\nframe 30", "stamp 5\nstamp 5"] {
            self.step(Step::Report(EMPTY))?;
            self.report_run(begin(class), [100; 5], &EMPTY)?;
            self.report_run(stands, [100; 5], &EMPTY)?;
            self.report_run("frame 30", [100; 5], &EMPTY)?;
            self.report_run(&format!("tick\nframe 30\n{whole}"), [100; 5], &counted)?;
        }
        self.step(Step::Report(EMPTY))?;
        let begun = script_of_lines(begin(class));
        self.run_form(begun, 0, None)?;
        self.report_run("ticks 65535", [100; 5], &EMPTY)?;
        self.run_form(script_of_lines(&whole), 0, None)?;
        self.report_run("", [100; 5], &EMPTY)?;
        self.close()
    }

    /// A job of a class that is dropped by a reset or a power cut, running or in the wait, in its
    /// own run and in a later one.
    fn dropped_jobs(&mut self, class: Class) -> Outcome {
        self.open_fresh(LENGTHS[0], 0)?;
        for end in ["frame 66\nframe 99", "power"] {
            for wait in ["", "\nframe B0"] {
                let lines = format!("{}{wait}", begin(class));
                self.report_run(&format!("{lines}\n{end}\nticks 300"), [9; 5], &EMPTY)?;
                self.report_run(&lines, [9; 5], &EMPTY)?;
                self.report_run(&format!("{end}\nticks 300"), [9; 5], &EMPTY)?;
            }
        }
        self.close()
    }

    /// Lines that are handed in, without a job and with one.
    fn joined_lines(&mut self, class: Class) -> Outcome {
        self.open_fresh(LENGTHS[0], 0)?;
        for (handed, margin, after) in JOINED {
            let mut allowances = [40; 5];
            let mut lines = String::new();
            if let Some(margin) = margin {
                allowances[place_of(class)] = (steps(class) as i32 + margin) as u32;
                lines = format!("{}\nticks 300", begin(class));
            }
            self.step(Step::Report(report_of(class, handed)))?;
            self.report_run(&lines, allowances, &report_of(class, after))?;
        }
        self.close()
    }

    /// Jobs of a class that ticks of every sort pass by, and those that end in the wait.
    fn delayed_jobs(&mut self, class: Class) -> Outcome {
        self.open_fresh(LENGTHS[0], 0)?;
        let steps = steps(class);
        for (lines, idle) in DELAYED {
            let margin = 1_000 - (steps + idle) as i32;
            self.step(Step::Report(EMPTY))?;
            let due = report_of(class, line(1, margin, margin));
            let lines = format!("{}\n{lines}\nticks 65535", begin(class));
            self.report_run(&lines, [1_000; 5], &due)?;
        }
        for last in ["tick", "ticks 9", "stamp 3\nstamp 12"] {
            let margin = 1_000 - steps as i32;
            self.step(Step::Report(EMPTY))?;
            let due = report_of(class, line(1, margin, margin));
            let lines = format!("{}\nticks {}\nframe B0\n{last}", begin(class), steps - 1);
            self.report_run(&lines, [1_000; 5], &due)?;
        }
        self.close()
    }

    /// Jobs of each class that are begun in suspension in the place of one of this class, in one run
    /// and in two: the new one counts from its own begin, the old one nowhere.
    fn jobs_in_suspension(&mut self, old: Class) -> Outcome {
        self.open_fresh(LENGTHS[0], 0)?;
        for new in LONG_JOBS {
            let margin = 700 - steps(new) as i32 - 11;
            let due = report_of(new, line(1, margin, margin));
            let first = format!("{}\nframe B0\nticks 33", begin(old));
            let second = format!("{}\nframe B0\nticks 12\nframe 30\nticks 65535", frame(new));
            self.step(Step::Report(EMPTY))?;
            self.report_run(&format!("{first}\n{second}"), [700; 5], &due)?;
            self.step(Step::Report(EMPTY))?;
            self.report_run(&first, [700; 5], &EMPTY)?;
            self.report_run(&second, [700; 5], &due)?;
        }
        self.close()
    }

    /// Several jobs of a script: two of a kind, the later or the earlier one late, and all kinds.
    fn many_jobs(&mut self) -> Outcome {
        self.open_fresh(LENGTHS[0], 0)?;
        for class in LONG_JOBS {
            let prompt = format!("{}\nticks 300", begin(class));
            let late = format!("{}\nframe B0\nticks 21\nframe 30\nticks 300", begin(class));
            let largest = 5 - steps(class) as i32;
            let due = report_of(class, line(2, largest - 20, largest));
            for lines in [[&prompt, &late], [&late, &prompt]] {
                self.step(Step::Report(EMPTY))?;
                self.report_run(&[lines[0].as_str(), lines[1]].join("\n"), [5; 5], &due)?;
            }
        }
        let status = format!("{}\ntick", begin(Class::WriteStatus));
        self.step(Step::Report(EMPTY))?;
        let due = report_of(Class::WriteStatus, line(2, 4, 4));
        self.report_run(&[status.as_str(), &status].join("\n"), [5; 5], &due)?;
        let all = KINDS.map(|(_, class)| format!("{}\nticks 256", begin(class))).join("\n");
        let due = KINDS.map(|(_, class)| 256 - steps(class) as i32);
        let due = due.map(|margin| line(1, margin, margin));
        self.step(Step::Report(EMPTY))?;
        self.report_run(&all, [256; 5], &due)?;
        self.close()
    }

    /// A report that is carried over twelve scripts, each of which ends the job that stands, does a
    /// whole one and begins another, with plain and refused runs between them.
    fn carried_report(&mut self) -> Outcome {
        self.open_fresh(LENGTHS[0], 0)?;
        let mut due = EMPTY;
        for number in 0..12 {
            let (_, class) = KINDS[number % KINDS.len()];
            let (_, next) = KINDS[(2 * number + 1) % KINDS.len()];
            let lines = format!("ticks 300\n{}\nticks 300\n{}", begin(class), begin(next));
            let margin = number as i32 * 7 - steps(class) as i32;
            let place = place_of(class);
            due[place] = match due[place] {
                Line { count: 0, .. } => line(1, margin, margin),
                Line { count, smallest, largest } => {
                    line(count + 1, smallest.min(margin), largest.max(margin))
                }
            };
            self.report_run(&lines, [number as u32 * 7; 5], &due)?;
            let back = self.run_form(vec![4, 9, 0, 5, 9, 0, 4], 0, Some([1; 5]))?;
            self.hold_refusal(&back, 8, 4)?;
            self.hold_report(&due)?;
            self.run_form(script_of_lines("tick"), 0, None)?;
        }
        self.close()
    }

    /// Runs that are refused leave the report: by 18 for each allowance, before all other numbers,
    /// and by these.
    fn refused_reports(&mut self) -> Outcome {
        self.open_fresh(LENGTHS[0], 0)?;
        for otherwise in OTHERWISE {
            self.refused_each_way(otherwise)?;
        }
        let area = areas::too_long(&mut self.rng);
        self.step(Step::Lend(area))?;
        self.refused_each_way((13, &[1, 2, 6, 3, 0], 0, None))?;
        self.close()?;
        let (chip, edit) = states::with_bad_flag(&mut self.rng, LENGTHS[0], 0, 2);
        self.open(LENGTHS[0], Start::Lent(Box::new(chip), edit), Content::Blank)?;
        self.refused_each_way((2, &[1, 2, 6, 3, 0], 0, None))?;
        self.close()
    }

    /// A script with an allowance out of range, for each kind and for all, and with the largest ones.
    fn refused_each_way(&mut self, (refusal, script, spare, length): Otherwise) -> Outcome {
        let mut runs = vec![([LARGEST + 1; 5], 18)];
        for place in 0..KINDS.len() {
            for number in [LARGEST + 1, u32::MAX] {
                let mut allowances = [0, LARGEST, 500, 1, LARGEST];
                allowances[place] = number;
                runs.push((allowances, 18));
            }
        }
        runs.push(([LARGEST; 5], refusal));
        runs.push(([0; 5], refusal));
        for (numbers, due) in runs {
            self.step(Step::Report(ODD))?;
            let (script, allowances) = (script.to_vec(), Some(numbers));
            let answer = self.step(Step::Run { script, spare, length, allowances })?;
            self.hold_to(&[answer.refusal], &[due])?;
            if due != 0 {
                self.hold_report(&ODD)?;
            }
        }
        Ok(())
    }

    /// The latest jobs that a script of 65,536 bytes can have: a chip erase of the real part that is
    /// suspended for all of it but for what begins, suspends, resumes and ends it; it is begun in
    /// the script, or by its first event alone.
    pub fn latest_jobs(&mut self, allowance: u32) -> Outcome {
        let rows: [(&str, &str, u64, u64); 2] = [
            ("", "frame 06\nframe 60\nframe B0", 21_837, 0),
            ("frame 06\nselect\nsend 60", "deselect\nframe B0", 21_840, 1),
        ];
        self.open(LENGTHS[5], Start::Fresh(0), Content::Blank)?;
        for (before, lines, events, single) in rows {
            self.run_form(script_of_lines(before), 0, None)?;
            self.step(Step::Report(EMPTY))?;
            let single_tick = if single > 0 { "tick" } else { "" };
            let mut script = script_of_lines(&format!(
                "{lines}\nrepeat {events} ticks 65535\n{single_tick}\nframe 30\nticks 65535"
            ));
            script.resize(LONGEST, 4);
            let used = 65_535 * events + single + 8_191;
            let margin = (i64::from(allowance) - used as i64) as i32;
            let answer = self.run_form(script, 0, Some([allowance; 5]))?;
            self.hold_refusal(&answer, 0, 0)?;
            self.hold_report(&report_of(Class::Chip, line(1, margin, margin)))?;
        }
        self.close()
    }
}
