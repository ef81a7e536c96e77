// The scenes of 5Ah frames, beside those of the other opcodes.

use crate::generate::Writer;
use crate::rng::Rng;
use crate::scenes::SCENES;

/// The opcode of a read of the SFDP area.
const READ_SFDP: u8 = 0x5A;

/// A scene that a writer can write.
type Scene = fn(&mut Writer);

/// The scenes of 5Ah frames.
const AREA_SCENES: [Scene; 6] = [
    |writer| writer.any_area_cell(),
    |writer| writer.read_area(),
    |writer| writer.read_over_area_end(),
    |writer| writer.read_over_last_place(),
    |writer| writer.wild_frame_of(READ_SFDP),
    |writer| writer.area_while_running(),
];

/// Any scene, now and then one of a 5Ah frame, and seldom that of a long read.
pub fn any_scene(rng: &mut Rng) -> Scene {
    if rng.once_in(6) {
        rng.pick(&AREA_SCENES)
    } else if rng.once_in(50) {
        |writer| writer.read_many()
    } else {
        rng.pick(&SCENES)
    }
}

impl Writer<'_> {
    /// A 5Ah frame with any verdict that it can get.
    fn any_area_cell(&mut self) {
        let verdict = self.rng.pick(&[0, 5, 6, 7]);
        self.reach(Some(READ_SFDP), verdict);
    }

    /// A read of the area at any address, short or long, loose or not.
    fn read_area(&mut self) {
        let address = self.area_address();
        let data = match self.rng.below(8) {
            0 => self.rng.below(600),
            _ => self.rng.below(12),
        };
        let loose = self.rng.once_in(3);
        self.read_area_at(address, data, loose);
    }

    /// A read of the area's last bytes, if it has some, and of those past its end.
    pub fn read_over_area_end(&mut self) {
        let inside = self.rng.below(4).min(self.area);
        let data = inside + 1 + self.rng.below(4);
        self.read_area_at((self.area - inside) as u32, data, false);
    }

    /// A read of the last places and then of the area's first.
    pub fn read_over_last_place(&mut self) {
        let before = 1 + self.rng.below(4);
        let data = before + 1 + self.rng.below(6);
        self.read_area_at((1 << 24) - before as u32, data, false);
    }

    /// A read of places below the memory length and of those from there on.
    pub fn read_past_memory(&mut self) {
        let before = 1 + self.rng.below(4);
        let data = before + 1 + self.rng.below(4);
        self.read_area_at((self.length() - before) as u32, data, false);
    }

    /// A read of some bytes of the area from an address on.
    pub fn read_area_at(&mut self, address: u32, data: usize, loose: bool) {
        self.idle();
        let mut bytes = Self::with_address(READ_SFDP, address);
        bytes.resize(5 + data, self.rng.byte());
        self.select();
        self.send(&bytes);
        self.finish(loose);
    }

    /// A 5Ah frame begun while a job runs, which goes on after the job has ended.
    fn area_while_running(&mut self) {
        self.run_some();
        self.outlast_job(READ_SFDP);
    }
}
