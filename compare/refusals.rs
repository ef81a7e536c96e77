// Steps that are refused: by the state, the memory length, the script, its events or the room.

use crate::area_scenes::any_scene;
use crate::areas;
use crate::case::{Content, Start, Step, LENGTHS};
use crate::event::{kind, room_needed, script_of, Event, LONGEST};
use crate::image::Edit;
use crate::margins::{any_allowances, KINDS, LARGEST};
use crate::model::Chip;
use crate::session::{Outcome, Session};
use crate::stamps::any_move;

/// Memory lengths that are none of the six.
const WRONG_LENGTHS: [usize; 11] = [
    0,
    1,
    256,
    Chip::SECTOR - 1,
    Chip::SECTOR + 1,
    3 * Chip::SECTOR,
    5 * Chip::SECTOR,
    31 * Chip::SECTOR,
    33 * Chip::SECTOR,
    32 * Chip::SECTOR - 1,
    64 * Chip::SECTOR,
];

/// Good events, in a legal state.
const SELECT: Event = (kind::SELECT, 0);
const OPCODE: Event = (kind::EXCHANGE, 0x05);
const TICK: Event = (kind::TICK, 0);
const POWER_CUT: Event = (kind::POWER_CUT, 0);
/// An event of an unknown kind.
const UNKNOWN: Event = (0, 0);
/// A stamp, which is no event alone.
const STAMP: Event = (kind::STAMP, 5);
/// A script whose second stamp went back.
const WENT_BACK: [u8; 6] = [9, 0, 5, 9, 0, 4];
/// Events whose bodies are out of range.
const OUT_OF_RANGE: Event = (kind::WP_LEVEL, 2);
const EIGHT_BITS: Event = (kind::DESELECT, 8);

// The scripts below are raw bytes: some of them are no events, or not whole ones.
impl Session<'_> {
    /// A state that is not legal: refused by 2 at every entry point and before 3 to 7, and not
    /// before 1, nor before 13 where the area is too long: with numbers that are no state always, on
    /// a short memory, and with other states now and then.
    pub fn broken_state(&mut self, length: usize, chip: Chip, edit: Edit) -> Outcome {
        let short = length == LENGTHS[0];
        let no_state = matches!(edit, Edit::Flag(..) | Edit::JobKind(_));
        self.open(length, Start::Lent(Box::new(chip), edit), Content::Blank)?;
        self.refused_by(2)?;
        self.wrong_length()?;
        if short && no_state || self.rng.once_in(8) {
            let area = areas::too_long(&mut self.rng);
            self.step(Step::Lend(area))?;
            self.refused_by(13)?;
            self.wrong_length()?;
        }
        self.close()
    }

    /// Good and bad events and runs, all of them refused by a number that comes before 3 to 7.
    pub fn refused_by(&mut self, number: u8) -> Outcome {
        let events = [SELECT, OPCODE, TICK, POWER_CUT, UNKNOWN, STAMP, OUT_OF_RANGE, EIGHT_BITS];
        let (first, second) = (self.rng.pick(&events), self.rng.pick(&events));
        let mut steps = vec![
            Step::Event { event: first, lent: false, length: None },
            Step::Event { event: second, lent: true, length: None },
        ];
        let good = vec![1, 2, 5, 2, 0, 3, 0];
        let unknown = vec![1, self.rng.pick(&[8, 0x0A, 0x80])];
        let unfinished = vec![self.rng.pick(&[2, 3, 9])];
        let out_of_range = self.rng.pick(&[[6, 2], [3, 8]]).to_vec();
        let too_long = vec![4; LONGEST + 1];
        let back = WENT_BACK.to_vec();
        for script in [vec![], good, unknown, unfinished, out_of_range, back, too_long] {
            let spare = self.rng.pick(&[0, -1, 3]);
            steps.push(self.any_run(script, spare));
        }
        for step in steps {
            let answer = self.step(step)?;
            assert_eq!(answer.refusal, number);
        }
        Ok(())
    }

    /// Any step over a memory length that is none of the six.
    pub fn wrong_length(&mut self) -> Outcome {
        let length = Some(self.rng.pick(&WRONG_LENGTHS));
        let lent = self.lent();
        let events = [SELECT, TICK, UNKNOWN, STAMP, OUT_OF_RANGE, EIGHT_BITS, POWER_CUT];
        let event = self.rng.pick(&events);
        self.step(Step::Event { event, lent, length })?;
        let scripts: [&[u8]; 8] = [
            &[],
            &[1, 2, 5, 3, 0],
            &[1, 2, 5, 3],
            &[0x80],
            &[8, 1],
            &[5, 0],
            &WENT_BACK,
            &[4; LONGEST + 1],
        ];
        let script = self.rng.pick(&scripts).to_vec();
        let allowances = self.some_allowances();
        self.step(Step::Run { script, spare: -1, length, allowances }).map(|_| ())
    }

    /// A step that is refused, or at least asks to be.
    pub fn refusal(&mut self) -> Outcome {
        match self.rng.below(12) {
            0..=4 => self.any_event(),
            5 => self.wrong_length(),
            6 => self.too_long(),
            7 => self.bad_allowances(),
            _ => self.bad_run(),
        }
    }

    /// One event with any numbers for its kind and its body.
    fn any_event(&mut self) -> Outcome {
        let (any, other) = (self.rng.next(), self.rng.next());
        let near = self.rng.below(12) as u64;
        let huge = [1 << 16, 1 << 32, 1 << 63, u64::MAX - 11][self.rng.below(4)];
        let kind = self.rng.pick(&[near, near, near, near, near + 250, near + huge, any]);
        let small = self.rng.below(12) as u64;
        let round = [250, 65_530, 1 << 16, 1 << 32, 1 << 63, u64::MAX - 11][self.rng.below(6)];
        let body = self.rng.pick(&[small, small, small + round, other]);
        let lent = self.lent();
        self.step(Step::Event { event: (kind, body), lent, length: None }).map(|_| ())
    }

    /// A run of a script that is too long, with or without a bad event in it.
    fn too_long(&mut self) -> Outcome {
        let bytes = LONGEST + self.rng.pick(&[1, 1, 2, 4_000, LONGEST]);
        let kind = self.rng.pick(&[kind::TICK, kind::TICK, kind::DESELECT, 8, 0x80, 0]);
        let spare = self.rng.pick(&[0, -1]);
        self.run(vec![kind as u8; bytes], spare)
    }

    /// A run with a report and with bad allowances, of a script that is good or not.
    fn bad_allowances(&mut self) -> Outcome {
        let mut allowances = any_allowances(&mut self.rng);
        for _ in 0..self.rng.pick(&[1, 1, 2]) {
            let place = self.rng.below(KINDS.len());
            let any = self.rng.next() as u32 | 1 << 20;
            allowances[place] = self.rng.pick(&[LARGEST + 1, LARGEST + 1, any, u32::MAX]);
        }
        let scripts: [&[u8]; 5] = [&[], &[1, 2, 6, 3, 0], &[2], &[8], &WENT_BACK];
        let (script, spare) = (self.rng.pick(&scripts).to_vec(), self.rng.pick(&[0, -1]));
        let length = self.rng.once_in(4).then(|| self.rng.pick(&WRONG_LENGTHS));
        let step = Step::Run { script, spare, length, allowances: Some(allowances) };
        self.step(step).map(|_| ())
    }

    /// A run with bad events, or with too little room, or both.
    fn bad_run(&mut self) -> Outcome {
        let scene = any_scene(&mut self.rng);
        let events = self.write(scene);
        let mut script = Vec::new();
        let bad = self.rng.below(3 * (events.len() + 1));
        for (number, event) in events.iter().enumerate() {
            if number == bad || number == 0 && self.rng.once_in(8) || self.rng.once_in(200) {
                script.extend(self.bad_bytes());
            }
            script.extend(script_of(&[*event]));
        }
        if self.rng.once_in(2) {
            script.extend(self.unfinished());
        }
        let needed = room_needed(&script);
        let spare = self.rng.pick(&[-1, -1, -2, -needed, 0, 1, 50]);
        self.run(script, spare)
    }

    /// The bytes of an event with an unknown kind or with a body outside its range, or of stamps of
    /// which most went back.
    fn bad_bytes(&mut self) -> Vec<u8> {
        let high = self.rng.byte();
        match self.rng.below(12) {
            0 => vec![0],
            1 => vec![0x80],
            2 => vec![high.max(10)],
            3 => vec![5, 0, 0],
            4 => vec![6, high.max(2)],
            5 => vec![3, 8],
            6 => vec![3, high.max(8)],
            7 => vec![8, high % 8],
            8 => vec![8],
            _ => script_of(&any_move(&mut self.rng)),
        }
    }

    /// The bytes of an event whose body, or a part of it, is not there, or of an unknown kind.
    fn unfinished(&mut self) -> Vec<u8> {
        let any = self.rng.byte();
        let last: [&[u8]; 10] =
            [&[2], &[3], &[5], &[5, 0], &[5, any], &[6], &[8], &[9], &[9, any], &[any]];
        self.rng.pick(&last).to_vec()
    }
}
