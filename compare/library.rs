// The library as one side: a process of its own, two pipes and one shared file.

use crate::event::Event;
use crate::image::Image;
use crate::margins::{Allowances, Report, KINDS};
use crate::model::{Chip, Line};
use crate::programming::Programming;
use crate::sfdp::{Found, CONTENT};
use crate::side::{Answer, Loan, RecordBytes, Side, MEMORY_AREA, OUTPUT_AREA, SFDP_AREA};
use crate::writer::Written;
use std::ffi::{c_int, c_void};
use std::fs::File;
use std::io::{Read, Write};
use std::os::fd::AsRawFd;
use std::process::{Child, ChildStdin, ChildStdout, Command, Stdio};

extern "C" {
    fn mmap(
        at: *mut c_void,
        length: usize,
        protection: c_int,
        flags: c_int,
        file: c_int,
        offset: i64,
    ) -> *mut c_void;
}

/// Where the script stands in the shared file, or the data that one is written for; the shim has
/// the same numbers.
const SCRIPT: usize = MEMORY_AREA;
/// Bytes of the area for the script.
pub const SCRIPT_AREA: usize = 3 * Chip::SECTOR;
/// Where the output stands.
const OUTPUT: usize = SCRIPT + SCRIPT_AREA;
/// Where the numbers of a request and of its answer stand.
const DESK: usize = OUTPUT + OUTPUT_AREA;
/// Where the chip stands on the desk.
const IMAGE: usize = DESK + 128;
/// Where the part's own SFDP area stands on the desk.
const OWN_AREA: usize = DESK + 1024;
/// Where the allowances of a run stand on the desk, and behind them its report.
const REPORT: usize = DESK + 2048;
/// Bytes of the allowances, and of a report.
const ALLOWANCES_LENGTH: usize = 4 * KINDS.len();
const REPORT_LENGTH: usize = 12 * KINDS.len();
/// Where the SFDP area with its guards stands.
const SFDP: usize = DESK + Chip::SECTOR;
/// Length of the shared file.
const FILE_LENGTH: usize = SFDP + Chip::SECTOR;
/// Bytes of a chip on the desk.
const IMAGE_LENGTH: usize = 548;

/// A running library process.
struct Process {
    child: Child,
    to: ChildStdin,
    from: ChildStdout,
}

/// The library process and the file that it shares with this one.
pub struct Library {
    command: Vec<String>,
    shared: *mut u8,
    process: Option<Process>,
}

impl Library {
    /// Makes the shared file and starts the library process over it. Its first request, for a fresh
    /// chip, tells whether it can run at all: that is an error, and no difference.
    pub fn new(path: &str, command: &[String]) -> Result<Library, String> {
        let mut command = command.to_vec();
        command.push(path.to_string());
        let shared = map_file(path)?;
        let mut library = Library { command, shared, process: None };
        library.fresh(0)?;
        Ok(library)
    }

    /// A part of the shared file.
    fn part(&mut self, start: usize, length: usize) -> &mut [u8] {
        assert!(start + length <= FILE_LENGTH);
        // The whole file is mapped, and the other process writes only while it serves a request.
        unsafe { std::slice::from_raw_parts_mut(self.shared.add(start), length) }
    }

    /// A number of the last answer.
    fn number(&self, place: usize) -> u64 {
        assert!(place < 16);
        // Inside the mapped file and aligned to 8.
        unsafe { self.shared.add(DESK + 8 * place).cast::<u64>().read_volatile() }
    }

    /// Sends a request with its numbers and waits until it is served.
    fn call(&mut self, request: u8, numbers: [u64; 4]) -> Result<(), String> {
        for (place, number) in numbers.into_iter().enumerate() {
            self.part(DESK + 8 * place, 8).copy_from_slice(&number.to_le_bytes());
        }
        if self.process.is_none() {
            self.process = Some(start(&self.command)?);
        }
        let Some(process) = &mut self.process else { return Ok(()) };
        let mut answer = [0];
        let sent =
            process.to.write_all(&[request]).and_then(|()| process.from.read_exact(&mut answer));
        if sent.is_err() || answer[0] != request {
            return Err(format!("the library process ended{}", self.stop()));
        }
        Ok(())
    }

    /// Ends the library process by ending its requests, and gives its exit status in words.
    fn stop(&mut self) -> String {
        let Some(Process { mut child, to, from }) = self.process.take() else {
            return String::new();
        };
        drop((to, from));
        child.wait().map_or(String::new(), |status| format!(", {status}"))
    }

    /// Sends a request for a run of a script and gives its answer.
    fn run_by(
        &mut self,
        request: u8,
        loan: Loan,
        script: &[u8],
        room: usize,
    ) -> Result<Answer, String> {
        self.part(SCRIPT, script.len()).copy_from_slice(script);
        let lengths = [loan.memory, loan.area, script.len(), room];
        self.call(request, lengths.map(|length| length as u64))?;
        if *self.part(SCRIPT, script.len()) != *script {
            return Err("the script was written to".to_string());
        }
        let [refusal, offset, written, ticks] = [0, 1, 2, 3].map(|place| self.number(place));
        Ok(Answer::to_run(refusal as u8, offset, written, ticks))
    }

    /// The answer to the event that was last served.
    fn event_answer(&self) -> Answer {
        let [refusal, length] = [0, 1].map(|place| self.number(place) as u8);
        let bytes = [3, 4, 5].map(|place| self.number(place) as u8);
        Answer::to_event(refusal, RecordBytes { length, bytes }, self.number(2))
    }
}

impl Drop for Library {
    /// Ends the library process.
    fn drop(&mut self) {
        self.stop();
    }
}

/// Makes a file of the right length and maps it, shared.
fn map_file(path: &str) -> Result<*mut u8, String> {
    let mut options = File::options();
    let file = options.read(true).write(true).create(true).truncate(true).open(path);
    let file = file.map_err(|error| format!("{path}: {error}"))?;
    file.set_len(FILE_LENGTH as u64).map_err(|error| format!("{path}: {error}"))?;
    // Protection 3 is read and write, flag 1 is shared; the mapping outlives the descriptor.
    let at = unsafe { mmap(std::ptr::null_mut(), FILE_LENGTH, 3, 1, file.as_raw_fd(), 0) };
    if at as isize == -1 {
        return Err(format!("{path} cannot be mapped"));
    }
    Ok(at.cast())
}

/// Starts the library process.
fn start(command: &[String]) -> Result<Process, String> {
    let mut child = Command::new(&command[0])
        .args(&command[1..])
        .stdin(Stdio::piped())
        .stdout(Stdio::piped())
        .spawn()
        .map_err(|error| format!("the library process does not start: {error}"))?;
    match (child.stdin.take(), child.stdout.take()) {
        (Some(to), Some(from)) => Ok(Process { child, to, from }),
        _ => Err("the library process has no pipes".to_string()),
    }
}

/// Writes an image as the list of fields that the shim reads.
fn pack(image: &Image) -> Vec<u8> {
    let mut bytes = image.flags.to_vec();
    bytes.extend([image.level, image.kind, image.value]);
    bytes.extend([image.opcode, image.slot, image.count, image.judgement]);
    for number in [image.start, image.done, image.address] {
        bytes.extend(number.to_le_bytes());
    }
    bytes.extend(image.place.to_le_bytes());
    bytes.extend(image.load);
    bytes.extend(image.held);
    bytes
}

/// Reads an image from the list of fields that the shim writes.
fn unpack(bytes: &[u8; IMAGE_LENGTH]) -> Image {
    let number = |at: usize| u32::from_le_bytes([0, 1, 2, 3].map(|i| bytes[at + i]));
    let part = |at: usize| std::array::from_fn(|i| bytes[at + i]);
    Image {
        flags: std::array::from_fn(|i| bytes[i]),
        level: bytes[9],
        kind: bytes[10],
        value: bytes[11],
        opcode: bytes[12],
        slot: bytes[13],
        count: bytes[14],
        judgement: bytes[15],
        start: number(16),
        done: number(20),
        address: number(24),
        place: u64::from(number(28)) | u64::from(number(32)) << 32,
        load: part(36),
        held: part(292),
    }
}

/// Writes a report as the rows of numbers that the shim reads.
fn pack_report(report: &Report) -> Vec<u8> {
    let numbers = |line: &Line| {
        let margins = [line.smallest, line.largest].map(i32::to_le_bytes);
        [line.count.to_le_bytes(), margins[0], margins[1]].concat()
    };
    report.iter().flat_map(numbers).collect()
}

/// Reads a report from the rows of numbers that the shim writes.
fn unpack_report(bytes: &[u8]) -> Report {
    let number = |at: usize| [0, 1, 2, 3].map(|i| bytes[at + i]);
    std::array::from_fn(|place| Line {
        count: u32::from_le_bytes(number(12 * place)),
        smallest: i32::from_le_bytes(number(12 * place + 4)),
        largest: i32::from_le_bytes(number(12 * place + 8)),
    })
}

impl Side for Library {
    fn fresh(&mut self, status: u8) -> Result<(), String> {
        self.call(b'f', [u64::from(status), 0, 0, 0])
    }

    fn put(&mut self, _: &Chip, image: &Image) -> Result<(), String> {
        self.part(IMAGE, IMAGE_LENGTH).copy_from_slice(&pack(image));
        self.call(b'p', [0; 4])
    }

    fn image(&self) -> Image {
        // Inside the mapped file; bytes have no alignment.
        unpack(unsafe { &*self.shared.add(IMAGE).cast::<[u8; IMAGE_LENGTH]>() })
    }

    fn legal(&mut self, length: usize) -> Result<bool, String> {
        self.call(b'l', [length as u64, 0, 0, 0])?;
        Ok(self.number(0) != 0)
    }

    fn event(&mut self, loan: Loan, event: Event, lent: bool) -> Result<Answer, String> {
        let request = if lent { b'b' } else { b'e' };
        self.call(request, [loan.memory as u64, loan.area as u64, event.0, event.1])?;
        Ok(self.event_answer())
    }

    fn run(&mut self, loan: Loan, script: &[u8], room: usize) -> Result<Answer, String> {
        self.run_by(b'r', loan, script, room)
    }

    fn run_report(
        &mut self,
        loan: Loan,
        script: &[u8],
        room: usize,
        allowances: &Allowances,
        report: &mut Report,
    ) -> Result<Answer, String> {
        let numbers = allowances.map(u32::to_le_bytes).concat();
        self.part(REPORT, ALLOWANCES_LENGTH).copy_from_slice(&numbers);
        let lines = self.part(REPORT + ALLOWANCES_LENGTH, REPORT_LENGTH);
        lines.copy_from_slice(&pack_report(report));
        let answer = self.run_by(b'm', loan, script, room)?;
        *report = unpack_report(self.part(REPORT + ALLOWANCES_LENGTH, REPORT_LENGTH));
        Ok(answer)
    }

    fn find(&mut self, area: usize, identity: u8) -> Result<Found, String> {
        self.call(b't', [area as u64, u64::from(identity), 0, 0])?;
        let [refusal, place, length] = [0, 1, 2].map(|place| self.number(place));
        Ok(Found { refusal: refusal as u8, place: place as usize, length: length as usize })
    }

    fn own_area(&mut self) -> Result<[u8; CONTENT.len()], String> {
        self.call(b'o', [0; 4])?;
        let part = self.part(OWN_AREA, CONTENT.len());
        Ok(std::array::from_fn(|at| part[at]))
    }

    fn write_program(&mut self, asked: &Programming) -> Result<Written, String> {
        let data = &asked.data;
        self.part(SCRIPT, data.len()).copy_from_slice(data);
        let numbers = [asked.memory, asked.address, data.len(), asked.room];
        self.call(b'w', numbers.map(|number| number as u64))?;
        if *self.part(SCRIPT, data.len()) != **data {
            return Err("the data were written to".to_string());
        }
        let [refusal, written] = [0, 1].map(|place| self.number(place));
        Ok(Written { refusal: refusal as u8, written: written as usize })
    }

    fn memory(&mut self) -> &mut [u8] {
        self.part(0, MEMORY_AREA)
    }

    fn sfdp(&mut self) -> &mut [u8] {
        self.part(SFDP, SFDP_AREA)
    }

    fn output(&mut self) -> &mut [u8] {
        self.part(OUTPUT, OUTPUT_AREA)
    }
}
