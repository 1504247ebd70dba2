//! The target's memory and how far a command may go in it.
//!
//! Every area a command may touch begins at byte 0, so that where it ends is
//! all there is to say about it.

/// "The target's memory is ... exactly 16,384 bytes."
pub const MEMORY: usize = 16_384;

/// The calibration area.
pub const CALIBRATION: std::ops::Range<usize> = 8_192..12_288;

/// The first byte of the recorder buffer.
pub const BUFFER: usize = 12_288;

/// The length of the recorder buffer.
pub const BUFFER_LENGTH: usize = 4_096;

/// Variables, calibration and recorder buffer: "Read over the port: yes".
pub const READ_END: u64 = 16_384;

/// Only the variables: "Written over the port: yes".
pub const WRITE_END: u64 = 8_192;

/// "Recorded variables and trigger must end at or below 12,288."
pub const RECORD_END: u64 = 12_288;

/// A size and an address, as a command or a definition gives them.
#[derive(Clone, Copy, Debug, PartialEq, Eq)]
pub struct Range {
    pub size: u8,
    pub address: u32,
}

impl Range {
    /// Whether the range ends at or below a bound; wide enough that no
    /// address of 4 bytes can wrap.
    pub fn ends_by(&self, end: u64) -> bool {
        u64::from(self.address) + u64::from(self.size) <= end
    }

    /// The bytes of the range as the memory stands.
    pub fn of<'a>(&self, memory: &'a [u8]) -> &'a [u8] {
        let from = self.address as usize;
        &memory[from..from + usize::from(self.size)]
    }
}

#[cfg(test)]
mod tests {
    use super::*;

    #[test]
    fn the_last_byte_counts() {
        let range = |size, address| Range { size, address };
        assert!(range(1, 16_383).ends_by(READ_END));
        assert!(!range(1, 16_384).ends_by(READ_END));
        assert!(range(4, 8_188).ends_by(WRITE_END));
        assert!(!range(4, 8_189).ends_by(WRITE_END));
        assert!(!range(2, u32::MAX).ends_by(READ_END));
    }
}
