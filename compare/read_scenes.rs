// The scene of long reads of cells, beside the short ones.

use crate::generate::Writer;
use crate::row_coverage::READS;

impl Writer<'_> {
    /// A read of some or many cells, on the chip as it is or on one that answers, or more of the
    /// frame that is open; with other events in it or none, ended in any way or left open.
    pub fn read_many(&mut self) {
        let data = match self.rng.below(6) {
            0 => self.rng.below(400),
            1 => 60 + self.rng.below(10),
            _ => self.rng.below(40),
        };
        let mut bytes = vec![self.rng.byte(); data];
        if !self.chip.selected || self.rng.once_in(2) {
            let begun = self.begin_read();
            bytes.splice(..0, begun);
        }
        let calm = self.calm;
        self.calm |= self.rng.once_in(2);
        self.send(&bytes);
        self.calm = calm;
        if !self.rng.once_in(3) {
            let loose = self.rng.once_in(3);
            self.finish(loose);
        }
    }

    /// Selects a chip, perhaps one that answers a read, and gives the header of one.
    fn begin_read(&mut self) -> Vec<u8> {
        match self.rng.below(4) {
            0 => self.suspend_some(),
            1 => self.settle(),
            _ => self.idle(),
        }
        let (opcode, header) = self.rng.pick(&READS);
        let mut bytes = Self::with_address(opcode, self.address());
        bytes.resize(header, self.rng.byte());
        self.select();
        bytes
    }
}
