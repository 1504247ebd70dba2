//! Frames at the second port: each function at its edges, frames with one thing
//! wrong, and frames that get silence.

use super::{hex, Maker};
use crate::modbus::summed;

/// Own stations, mostly one of three.
const STATIONS: [u16; 8] = [17, 17, 17, 1, 247, 2, 43, 128];
const NO_STATIONS: [u16; 8] = [0, 0, 248, 248, 256, 273, 0x1100, 65_535];

/// Rooms that are enough, and rooms that are not.
const ENOUGH: [usize; 5] = [256, 256, 257, 300, 600];
const SHORT: [usize; 5] = [0, 8, 254, 255, 255];

/// Where a read and a write must end.
const READ_END: u16 = 8_192;
const WRITE_END: u16 = 4_096;

/// Quantities at their edges, more than there may be among them, and one that
/// looks small where only its low byte is taken.
const READS: [u16; 9] = [1, 2, 3, 10, 43, 64, 124, 125, 125];
const WRITES: [u16; 9] = [1, 1, 2, 3, 10, 43, 122, 123, 123];
const NO_QUANTITIES: [u16; 8] = [0, 0, 124, 126, 127, 128, 257, 65_535];

/// Functions that are not served: the ends, and those next to the served ones.
const OTHERS: [u8; 12] = [0, 0, 1, 2, 4, 7, 15, 17, 21, 23, 127, 127];

impl Maker {
    /// One frame or some, and now and then the service port looks at what they
    /// wrote.
    pub fn frames(&mut self) {
        for _ in 0..1 + self.rng.below(3) {
            self.some_frame();
        }
        if self.rng.once_in(3) {
            self.fast_read();
        }
    }

    /// What a running recorder leaves and the trigger it watches, by registers.
    pub fn frames_beside_recorder(&mut self) {
        self.recording();
        self.read_frame(6_144, 125);
        let Some(plan) = self.plan.clone() else {
            return;
        };
        self.send(0xC1, &[]);
        for _ in 0..1 + self.rng.below(4) {
            let value = self.rng.next() as u16;
            self.write_one_frame((plan.address / 2) as u16, value);
            self.some_steps(&plan);
        }
        self.read_frame(6_144, 16);
    }

    pub fn some_frame(&mut self) {
        match self.rng.below(18) {
            0..=6 => self.right_frame(),
            7 | 8 => self.outside_frame(),
            9..=11 => self.wrong_value_frame(),
            12 => self.wrong_write_frame(),
            13 => self.other_function_frame(),
            14..=16 => self.silent_frame(),
            _ => self.refused_frame(),
        }
    }

    /// A request that is carried out, of any function.
    fn right_request(&mut self) -> Vec<u8> {
        match self.rng.below(4) {
            0 => {
                let quantity = *self.rng.pick(&READS);
                let from = self.first_register(quantity, READ_END);
                words(3, &[from, quantity])
            }
            1 => {
                let at = self.first_register(1, WRITE_END);
                let value = self.some_word();
                words(6, &[at, value])
            }
            2 => {
                let quantity = *self.rng.pick(&WRITES);
                let from = self.first_register(quantity, WRITE_END);
                self.write_request(from, quantity)
            }
            _ => {
                let at = self.first_register(1, WRITE_END);
                let (and, or) = (self.some_word(), self.some_word());
                words(22, &[at, and, or])
            }
        }
    }

    fn write_request(&mut self, from: u16, quantity: u16) -> Vec<u8> {
        let mut request = words(16, &[from, quantity]);
        request.push((2 * quantity) as u8);
        request.extend(self.rng.bytes(2 * usize::from(quantity)));
        request
    }

    fn right_frame(&mut self) {
        let request = self.right_request();
        self.for_some_station(&request);
    }

    /// A range that ends just behind what may be touched, or far behind.
    fn outside_frame(&mut self) {
        let mut request = self.right_request();
        let (quantity, end) = match request[0] {
            3 => (u16::from_be_bytes([request[3], request[4]]), READ_END),
            16 => (u16::from_be_bytes([request[3], request[4]]), WRITE_END),
            _ => (1, WRITE_END),
        };
        let past = *self.rng.pick(&[1, 1, 2, quantity]);
        let far = *self.rng.pick(&[0x1000, 0x1FFF, 0x2000, 0x8000, 0xFFFF]);
        let from = *self
            .rng
            .pick(&[end - quantity + past, end - quantity + past, end, far]);
        request[1..3].copy_from_slice(&from.to_be_bytes());
        self.for_some_station(&request);
    }

    /// A quantity, a byte count or a length that does not fit; the address, at
    /// times, neither.
    fn wrong_value_frame(&mut self) {
        let mut request = self.right_request();
        if self.rng.once_in(3) {
            request[1..3].copy_from_slice(&[0xFF, 0xFF]);
        }
        let is_write = request[0] == 16;
        match self.rng.below(6) {
            0 | 1 if is_write || request[0] == 3 => {
                let quantity = *self.rng.pick(&NO_QUANTITIES);
                request[3..5].copy_from_slice(&quantity.to_be_bytes());
                if is_write && self.rng.once_in(2) {
                    request[5] = (quantity as u8).wrapping_mul(2);
                }
            }
            2 | 3 if is_write => {
                request[5] = request[5].wrapping_add(*self.rng.pick(&[1, 2, 255, 254, 128]));
            }
            0..=3 => request.push(self.rng.byte()),
            4 => request.truncate(1 + self.rng.below(request.len() as u64 - 1) as usize),
            _ => {
                let more = 1 + self.rng.below(6) as usize;
                request.extend(self.rng.bytes(more));
            }
        }
        self.for_some_station(&request);
    }

    /// Registers to write whose quantity, byte count and values fit each other in
    /// all but one way.
    fn wrong_write_frame(&mut self) {
        let from = self.first_register(1, WRITE_END);
        let (quantity, count, values) = *self.rng.pick(&[
            (0, 0, 0),
            (1, 3, 3),
            (1, 1, 1),
            (2, 2, 2),
            (1, 4, 4),
            (1, 2, 3),
            (2, 4, 3),
            (2, 2, 4),
            (257, 2, 2),
            (0x8001, 2, 2),
            (124, 248, 10),
        ]);
        let mut request = words(16, &[from, quantity]);
        request.push(count);
        request.extend(self.rng.bytes(values));
        self.for_some_station(&request);
    }

    /// Whatever follows.
    fn other_function_frame(&mut self) {
        let mut request = self.right_request();
        request[0] = *self.rng.pick(&OTHERS);
        if self.rng.once_in(3) {
            request.truncate(1);
        }
        self.for_some_station(&request);
    }

    /// A frame that would be carried out, but for one thing; one of 256 bytes is
    /// just not silent.
    fn silent_frame(&mut self) {
        let station = *self.rng.pick(&STATIONS);
        let mut request = self.right_request();
        let mut named = station as u8;
        match self.rng.below(8) {
            0 => named = 0,
            1 => named = *self.rng.pick(&[named ^ 1, named ^ 0x80, 255, 248]),
            2 => request[0] |= 0x80,
            3 => return self.short_frame(station),
            4 => {
                let long = *self.rng.pick(&[253, 253, 254, 254, 255, 300, 597]);
                request = self.write_request(0, 123);
                request.resize(long, 0x11);
            }
            _ => return self.damaged_frame(station, &request),
        }
        self.frame_line(station, &framed(named, &request));
    }

    /// Up to three bytes, their check sum right where there is room for one.
    fn short_frame(&mut self, station: u16) {
        let frame = match self.rng.below(3) {
            0 => summed(vec![station as u8]),
            1 => summed(Vec::new()),
            _ => framed(station as u8, &[3])[..self.rng.below(4) as usize].to_vec(),
        };
        self.frame_line(station, &frame);
    }

    /// One byte or both of the check sum, or one bit of anything.
    fn damaged_frame(&mut self, station: u16, request: &[u8]) {
        let mut frame = framed(station as u8, request);
        let last = frame.len() - 1;
        match self.rng.below(5) {
            0 => frame[last] = self.rng.byte(),
            1 => frame[last - 1] = self.rng.byte(),
            2 => frame.swap(last - 1, last),
            3 => frame[last - 1..].copy_from_slice(&[0, 0]),
            _ => {
                let at = self.rng.below(frame.len() as u64) as usize;
                frame[at] ^= 1 << self.rng.below(8);
            }
        }
        self.frame_line(station, &frame);
    }

    /// A room too short, no station to own, or both; also where silence would
    /// follow.
    fn refused_frame(&mut self) {
        let request = self.right_request();
        let station = *self.rng.pick(&STATIONS);
        let other = *self.rng.pick(&NO_STATIONS);
        let (enough, short) = (*self.rng.pick(&ENOUGH), *self.rng.pick(&SHORT));
        let (station, room) = *self
            .rng
            .pick(&[(station, short), (other, enough), (other, short)]);
        let mut frame = framed(station as u8, &request);
        if self.rng.once_in(4) {
            frame.truncate(3);
        }
        self.frame_into(station, room, &frame);
    }

    fn read_frame(&mut self, from: u16, quantity: u16) {
        self.for_some_station(&words(3, &[from, quantity]));
    }

    fn write_one_frame(&mut self, at: u16, value: u16) {
        self.for_some_station(&words(6, &[at, value]));
    }

    fn for_some_station(&mut self, request: &[u8]) {
        let station = *self.rng.pick(&STATIONS);
        self.frame_line(station, &framed(station as u8, request));
    }

    fn frame_line(&mut self, station: u16, frame: &[u8]) {
        let room = *self.rng.pick(&ENOUGH);
        self.frame_into(station, room, frame);
    }

    fn frame_into(&mut self, station: u16, room: usize, frame: &[u8]) {
        self.lines.push(format!("U {station} {room}{}", hex(frame)));
    }

    /// From 0 on, up to the end, across an area's end or anywhere.
    fn first_register(&mut self, quantity: u16, end: u16) -> u16 {
        let last = end - quantity;
        let any = self.rng.below(u64::from(last) + 1) as u16;
        let low = self.rng.below(40) as u16;
        let across = 4_096 - quantity / 2;
        (*self.rng.pick(&[0, low, low, low, any, last, last, across])).min(last)
    }

    fn some_word(&mut self) -> u16 {
        let any = self.rng.next() as u16;
        *self
            .rng
            .pick(&[0, 1, 0xFF, 0xFF00, 0x00F2, 0x0025, 0xFFFF, 0x2B2B, any, any])
    }
}

/// A request of a function and numbers, "high byte first".
fn words(function: u8, numbers: &[u16]) -> Vec<u8> {
    let bytes = numbers.iter().flat_map(|number| number.to_be_bytes());
    [function].into_iter().chain(bytes).collect()
}

fn framed(station: u8, request: &[u8]) -> Vec<u8> {
    summed([&[station], request].concat())
}
