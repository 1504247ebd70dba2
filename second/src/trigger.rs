//! The trigger: when the trigger variable crosses its threshold.

use crate::request::Setup;

/// The trigger of a setup, with its threshold as a number.
#[derive(Clone)]
pub struct Trigger {
    falling: bool,
    sign: bool,
    threshold: i64,
}

impl Trigger {
    /// The trigger of a setup; none "with mode 0".
    pub fn of(setup: &Setup) -> Option<Trigger> {
        if !setup.has_trigger() {
            return None;
        }
        let sign = setup.sign == 1;
        // "only the first 'trigger size' bytes count"
        let threshold = &setup.threshold[..usize::from(setup.trigger.size)];
        Some(Trigger {
            falling: setup.mode == 2,
            sign,
            threshold: number(threshold, sign),
        })
    }

    /// The trigger variable's value, read as the threshold is.
    pub fn value(&self, bytes: &[u8]) -> i64 {
        number(bytes, self.sign)
    }

    /// "Rising: the value at the previous set was below the threshold, this one
    /// is at or above it. Falling: previous above, this one at or below."
    pub fn comes(&self, previous: i64, this: i64) -> bool {
        if self.falling {
            previous > self.threshold && this <= self.threshold
        } else {
            previous < self.threshold && this >= self.threshold
        }
    }

    /// "the first set after a start fires a rising trigger when its value is at
    /// or above the threshold, and a falling one when at or below" (2026-02).
    pub fn comes_first(&self, first: i64) -> bool {
        if self.falling {
            first <= self.threshold
        } else {
            first >= self.threshold
        }
    }
}

/// "Sign 1 reads both as two's complement of the trigger size, sign 0 as
/// unsigned": with a sign, the last byte alone weighs from -128 to 127.
fn number(bytes: &[u8], sign: bool) -> i64 {
    let top = bytes.len() - 1;
    bytes.iter().enumerate().fold(0, |number, (index, byte)| {
        let digit = if sign && index == top {
            i64::from(*byte as i8)
        } else {
            i64::from(*byte)
        };
        number + digit * (1 << (8 * index))
    })
}

#[cfg(test)]
mod tests {
    use super::*;

    #[test]
    fn reads_at_the_trigger_size() {
        assert_eq!(number(&[0x80], false), 128);
        assert_eq!(number(&[0x80], true), -128);
        assert_eq!(number(&[0x00, 0x80], true), -32_768);
        assert_eq!(number(&[0xFF, 0x7F], true), 32_767);
        assert_eq!(number(&[0xFF, 0xFF, 0xFF, 0xFF], true), -1);
        assert_eq!(number(&[0xFF, 0xFF, 0xFF, 0xFF], false), 4_294_967_295);
        assert_eq!(number(&[0, 0, 0, 0x80], true), -2_147_483_648);
    }

    #[test]
    fn the_threshold_itself_counts_once() {
        let trigger = |falling| Trigger {
            falling,
            sign: false,
            threshold: 5,
        };
        assert!(trigger(false).comes(4, 5));
        assert!(!trigger(false).comes(5, 6));
        assert!(trigger(true).comes(6, 5));
        assert!(!trigger(true).comes(5, 4));
        assert!(trigger(false).comes_first(5) && trigger(false).comes_first(6));
        assert!(!trigger(false).comes_first(4));
        assert!(trigger(true).comes_first(5) && trigger(true).comes_first(4));
        assert!(!trigger(true).comes_first(6));
    }
}
