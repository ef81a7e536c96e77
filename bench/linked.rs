// The engine in this process: the functions that the library exports. A struct goes by its address,
// the answer's first; the chip that is handed over is the callee's own, so each call gets a copy.

use crate::event::Event;
use crate::image::Image;
use crate::margins::{Allowances, Report, KINDS};
use crate::model::{Chip, Line};
use crate::programming::Programming;
use crate::sfdp::{Found, CONTENT};
use crate::side::{
    Answer, Loan, RecordBytes, Side, GUARD, LONGEST_RECORD, MEMORY_AREA, OUTPUT_AREA, SFDP_AREA,
};
use crate::writer::Written;
use std::mem::MaybeUninit;

#[repr(C)]
struct EventNumbers {
    chip: Image,
    refusal: u8,
    length: u8,
    record: [u8; LONGEST_RECORD],
    ticks: u32,
}

#[repr(C)]
struct RunNumbers {
    chip: Image,
    refusal: u8,
    offset: usize,
    written: usize,
    ticks: u64,
}

#[repr(C)]
#[derive(Clone, Copy)]
struct LineNumbers {
    count: u32,
    smallest: i32,
    largest: i32,
}

#[repr(C)]
struct ReportedNumbers {
    run: RunNumbers,
    report: [LineNumbers; KINDS.len()],
}

#[repr(C)]
struct FoundNumbers {
    refusal: u8,
    place: usize,
    length: usize,
}

#[repr(C)]
struct WrittenNumbers {
    refusal: u8,
    written: usize,
}

/// A function that applies one event: its answer, the chip, the memory with its length, the SFDP
/// area with its length, the event's kind and its body.
type EventFunction =
    unsafe extern "C" fn(*mut EventNumbers, *mut Image, *mut u8, usize, *const u8, usize, u64, u64);

extern "C" {
    fn chip_fresh(answer: *mut Image, status: u8);
    fn chip_legal(chip: *mut Image, length: usize) -> bool;
    // Both are an `EventFunction`.
    fn chip_event(
        _: *mut EventNumbers,
        _: *mut Image,
        _: *mut u8,
        _: usize,
        _: *const u8,
        _: usize,
        _: u64,
        _: u64,
    );
    fn chip_event_lent(
        _: *mut EventNumbers,
        _: *mut Image,
        _: *mut u8,
        _: usize,
        _: *const u8,
        _: usize,
        _: u64,
        _: u64,
    );
    fn sfdp_find(answer: *mut FoundNumbers, area: *const u8, length: usize, identity: u8);
    fn sfdp_own_area(answer: *mut [u8; CONTENT.len()]);
    // Its answer is small enough to come back by value.
    fn write_program(
        length: usize,
        address: usize,
        data: *const u8,
        data_length: usize,
        output: *mut u8,
        room: usize,
    ) -> WrittenNumbers;
    fn chip_run(
        answer: *mut RunNumbers,
        chip: *mut Image,
        memory: *mut u8,
        length: usize,
        area: *const u8,
        area_length: usize,
        script: *const u8,
        script_length: usize,
        output: *mut u8,
        room: usize,
    );
    fn chip_run_report(
        answer: *mut ReportedNumbers,
        chip: *mut Image,
        memory: *mut u8,
        length: usize,
        area: *const u8,
        area_length: usize,
        script: *const u8,
        script_length: usize,
        output: *mut u8,
        room: usize,
        allowances: *mut Allowances,
        report: *mut [LineNumbers; KINDS.len()],
    );
}

/// A fresh chip of the library.
fn fresh(status: u8) -> Image {
    let mut chip = MaybeUninit::uninit();
    // It takes any byte, and writes the whole chip.
    unsafe {
        chip_fresh(chip.as_mut_ptr(), status);
        chip.assume_init()
    }
}

/// A report as the library takes it.
fn line_numbers(report: &Report) -> [LineNumbers; KINDS.len()] {
    report.map(|Line { count, smallest, largest }| LineNumbers { count, smallest, largest })
}

/// A report as the library gives it back.
fn report_of(lines: [LineNumbers; KINDS.len()]) -> Report {
    lines.map(|LineNumbers { count, smallest, largest }| Line { count, smallest, largest })
}

/// One chip of the library with its memory, its SFDP area and its output.
pub struct Linked {
    chip: Image,
    memory: Vec<u8>,
    sfdp: Vec<u8>,
    output: Vec<u8>,
}

impl Linked {
    /// A fresh chip.
    pub fn new() -> Linked {
        let (memory, sfdp) = (vec![0; MEMORY_AREA], vec![0; SFDP_AREA]);
        Linked { chip: fresh(0), memory, sfdp, output: vec![0; OUTPUT_AREA] }
    }
}

impl Side for Linked {
    fn fresh(&mut self, status: u8) -> Result<(), String> {
        self.chip = fresh(status);
        Ok(())
    }

    fn put(&mut self, _: &Chip, image: &Image) -> Result<(), String> {
        self.chip = *image;
        Ok(())
    }

    fn image(&self) -> Image {
        self.chip
    }

    fn legal(&mut self, length: usize) -> Result<bool, String> {
        let mut chip = self.chip;
        // It takes any numbers.
        Ok(unsafe { chip_legal(&mut chip, length) })
    }

    fn event(&mut self, loan: Loan, event: Event, lent: bool) -> Result<Answer, String> {
        let function: EventFunction = if lent { chip_event_lent } else { chip_event };
        let (mut chip, mut answer) = (self.chip, MaybeUninit::uninit());
        let (memory, length) = (self.memory[..loan.memory].as_mut_ptr(), loan.memory);
        let (area, to) = (self.sfdp[GUARD..][..loan.area].as_ptr(), answer.as_mut_ptr());
        // The memory and the area are lent for the call alone, which writes the whole answer.
        let a = unsafe {
            function(to, &mut chip, memory, length, area, loan.area, event.0, event.1);
            answer.assume_init()
        };
        self.chip = a.chip;
        let record = RecordBytes { length: a.length, bytes: a.record };
        Ok(Answer::to_event(a.refusal, record, u64::from(a.ticks)))
    }

    fn run(&mut self, loan: Loan, script: &[u8], room: usize) -> Result<Answer, String> {
        let (mut chip, mut answer) = (self.chip, MaybeUninit::<RunNumbers>::uninit());
        let (memory, length) = (self.memory[..loan.memory].as_mut_ptr(), loan.memory);
        let (area, area_length) = (self.sfdp[GUARD..][..loan.area].as_ptr(), loan.area);
        let output = self.output[..room].as_mut_ptr();
        let (from, bytes, to) = (script.as_ptr(), script.len(), answer.as_mut_ptr());
        // The memory, the area, the script and the output are lent for the call alone, which
        // writes the whole answer.
        let a = unsafe {
            chip_run(to, &mut chip, memory, length, area, area_length, from, bytes, output, room);
            answer.assume_init()
        };
        self.chip = a.chip;
        Ok(Answer::to_run(a.refusal, a.offset as u64, a.written as u64, a.ticks))
    }

    fn run_report(
        &mut self,
        loan: Loan,
        script: &[u8],
        room: usize,
        allowances: &Allowances,
        report: &mut Report,
    ) -> Result<Answer, String> {
        let (mut chip, mut answer) = (self.chip, MaybeUninit::<ReportedNumbers>::uninit());
        let (mut numbers, mut lines) = (*allowances, line_numbers(report));
        let area = &self.sfdp[GUARD..][..loan.area];
        let (memory, output) = (&mut self.memory[..loan.memory], &mut self.output[..room]);
        // All that is lent is lent for the call alone, which writes the whole answer.
        let a = unsafe {
            chip_run_report(
                answer.as_mut_ptr(),
                &mut chip,
                memory.as_mut_ptr(),
                memory.len(),
                area.as_ptr(),
                area.len(),
                script.as_ptr(),
                script.len(),
                output.as_mut_ptr(),
                output.len(),
                &mut numbers,
                &mut lines,
            );
            answer.assume_init()
        };
        (self.chip, *report) = (a.run.chip, report_of(a.report));
        let RunNumbers { refusal, offset, written, ticks, .. } = a.run;
        Ok(Answer::to_run(refusal, offset as u64, written as u64, ticks))
    }

    fn find(&mut self, area: usize, identity: u8) -> Result<Found, String> {
        let (from, mut answer) = (self.sfdp[GUARD..][..area].as_ptr(), MaybeUninit::uninit());
        // The area is lent for the call alone, which writes the whole answer.
        let FoundNumbers { refusal, place, length } = unsafe {
            sfdp_find(answer.as_mut_ptr(), from, area, identity);
            answer.assume_init()
        };
        Ok(Found { refusal, place, length })
    }

    fn own_area(&mut self) -> Result<[u8; CONTENT.len()], String> {
        let mut area = [0; CONTENT.len()];
        // It writes the whole area.
        unsafe { sfdp_own_area(&mut area) };
        Ok(area)
    }

    fn write_program(&mut self, asked: &Programming) -> Result<Written, String> {
        let Programming { memory, address, data, room } = asked;
        let (from, to) = (data.as_ptr(), self.output[..*room].as_mut_ptr());
        // The data and the output are lent for the call alone.
        let WrittenNumbers { refusal, written } =
            unsafe { write_program(*memory, *address, from, data.len(), to, *room) };
        Ok(Written { refusal, written })
    }

    fn memory(&mut self) -> &mut [u8] {
        &mut self.memory
    }

    fn sfdp(&mut self) -> &mut [u8] {
        &mut self.sfdp
    }

    fn output(&mut self) -> &mut [u8] {
        &mut self.output
    }
}
