//! Tables with their entries and the strings of their types, as they are put
//! into memory; and what makes a list of them bad.

use super::Maker;
use crate::tables::BASE_TYPES;

/// Where strings of types are put: in every area.
const PLACES: [usize; 4] = [100, 8_100, 10_300, 12_400];

/// The most bytes in one line that fills memory.
const LINE: usize = 1_024;

/// The string of a type: where it begins, and the size that a base type has.
#[derive(Clone, Copy)]
pub struct Type {
    address: u16,
    size: Option<u16>,
}

/// An entry's name, type, address and info.
type Entry = [u16; 4];

/// A table with its entries, and the size that the list gives it.
#[derive(Clone)]
pub struct Planned {
    pub address: usize,
    pub size: usize,
    entries: Vec<Entry>,
}

impl Planned {
    fn bytes(&self) -> Vec<u8> {
        let words = self.entries.iter().flatten();
        words.flat_map(|word| word.to_le_bytes()).collect()
    }
}

/// What is put into memory.
impl Maker {
    /// The strings of all base types and of some others, up to memory's end at
    /// times.
    pub fn put_types(&mut self) -> Vec<Type> {
        let mut strings = self.type_strings();
        let first = self.rng.below(strings.len() as u64) as usize;
        strings.rotate_left(first);
        let at_end = self.rng.once_in(4);
        if at_end && self.rng.once_in(2) {
            // A code in the last byte: no zero can follow it.
            strings.push((vec![self.code()], None));
        }
        let length: usize = strings.iter().map(|(string, _)| string.len()).sum();
        let start = match at_end {
            true => 16_384 - length,
            false => *self.rng.pick(&PLACES),
        };
        let mut bytes = Vec::new();
        let mut types = Vec::new();
        for (string, size) in strings {
            let address = (start + bytes.len()) as u16;
            types.push(Type { address, size });
            bytes.extend(string);
        }
        self.poke(start, &bytes);
        types
    }

    /// Strings, and the sizes of those that are base types.
    fn type_strings(&mut self) -> Vec<(Vec<u8>, Option<u16>)> {
        let bases = BASE_TYPES.iter().flat_map(|(size, codes)| {
            let string = |code: &u8| (vec![*code, 0], Some(*size));
            codes.iter().map(string)
        });
        let mut strings: Vec<_> = bases.collect();
        // A code with more behind it, and bytes that only look like codes.
        let longer = vec![self.code(), *self.rng.pick(&[0x01, 0x41, 0xE0, 0xFB]), 0];
        let near = [0x60, 0x70, 0xE4, 0xE7, 0xEC, 0xF4, 0xF9, 0xFC, 0xFF];
        let near = vec![*self.rng.pick(&near), 0];
        let others = [longer, near, vec![0], b"LOG\0".to_vec()];
        strings.extend(others.map(|string| (string, None)));
        strings
    }

    /// The code of a base type.
    fn code(&mut self) -> u8 {
        let (_, codes) = *self.rng.pick(&BASE_TYPES);
        *self.rng.pick(codes)
    }

    /// Tables that stand close together are put into memory as one.
    pub fn put_tables(&mut self, planned: &[Planned]) {
        let mut rest = planned;
        while let Some((first, behind)) = rest.split_first() {
            let mut bytes = first.bytes();
            rest = behind;
            while let Some((next, behind)) = rest.split_first() {
                let end = first.address + bytes.len();
                if !(end..end + 9).contains(&next.address) {
                    break;
                }
                bytes.resize(next.address - first.address, 0);
                bytes.extend(next.bytes());
                rest = behind;
            }
            self.put(first.address, &bytes);
        }
    }

    /// Writes memory in lines of a length that can be read; what would lie
    /// behind memory is left out.
    pub fn put(&mut self, address: usize, bytes: &[u8]) {
        for (number, part) in bytes.chunks(LINE).enumerate() {
            let at = address + number * LINE;
            if at < 16_384 {
                self.poke(at, part);
            }
        }
    }
}

/// Tables that can be registered.
impl Maker {
    /// So many, one behind the other from the beginning of the area or up to its
    /// end, at any alignment.
    pub fn planned(&mut self, count: usize, types: &[Type]) -> Vec<Planned> {
        let mut at = 8_192 + self.rng.below(3) as usize;
        let mut planned = Vec::new();
        for _ in 0..count {
            let entries = *self.rng.pick(&[1, 1, 1, 2, 3, 6]);
            planned.push(self.table(at, entries, types));
            at += 8 * entries + *self.rng.pick(&[0, 0, 0, 1, 8]);
        }
        if let (Some(last), true) = (planned.last(), self.rng.once_in(3)) {
            let up = 12_288 - (last.address + last.size);
            planned.iter_mut().for_each(|table| table.address += up);
        }
        planned
    }

    /// The longest table there is; no type of it may stand in it.
    pub fn whole_area(&mut self, types: &[Type]) -> Planned {
        let beside = |t: &&Type| !(8_192..12_288).contains(&t.address);
        let mut types: Vec<Type> = types.iter().filter(beside).copied().collect();
        types.push(Type {
            address: 8_191,
            size: None,
        });
        // An empty string, whatever the area begins with.
        self.poke(8_191, &[0]);
        self.table(8_192, 512, &types)
    }

    fn table(&mut self, address: usize, count: usize, types: &[Type]) -> Planned {
        Planned {
            address,
            size: 8 * count,
            entries: (0..count).map(|_| self.entry(types)).collect(),
        }
    }

    /// Any name and address, a type among these, and the size it asks for.
    fn entry(&mut self, types: &[Type]) -> Entry {
        let kind = *self.rng.pick(types);
        let any = *self.rng.pick(&[0, 1, 2, 3, 4, 8, 9, 100, 16_383]);
        let info = self.info(kind.size.unwrap_or(any));
        [self.any_word(), kind.address, self.any_word(), info]
    }

    /// A size, and any access rights.
    fn info(&mut self, size: u16) -> u16 {
        4 * size + self.rng.below(4) as u16
    }

    fn any_word(&mut self) -> u16 {
        let any = self.rng.next() as u16;
        *self.rng.pick(&[any, 0, 100, 8_192, 16_383, 16_384, 65_535])
    }
}

/// What makes a list bad.
impl Maker {
    /// The first, the last or any of so many.
    pub fn one_of(&mut self, count: usize) -> usize {
        let any = self.rng.below(count as u64) as usize;
        *self.rng.pick(&[0, count - 1, any])
    }

    pub fn too_many(&mut self, planned: &mut Vec<Planned>) {
        let count = *self.rng.pick(&[17, 17, 17, 18, 32, 40]);
        let again = planned.clone().into_iter().cycle();
        planned.extend(again.take(count - planned.len()));
    }

    /// No entry, or not whole ones.
    pub fn broken_entries(&mut self, table: &mut Planned) {
        let off = *self.rng.pick(&[1, 1, 4, 7]);
        table.size = match self.rng.below(3) {
            0 => 0,
            1 => table.size + off,
            _ => table.size - off,
        };
    }

    /// Good entries where no table may be: across an end of the area, beside it
    /// and far from it; or a size with which the end wraps at 65,536.
    pub fn out_of_area(&mut self, table: &mut Planned) {
        let size = table.size;
        match self.rng.below(7) {
            0 => table.address = *self.rng.pick(&[8_184, 8_191, 8_191]),
            1 => table.address = 8_192 - size,
            2 => table.address = 12_289 - size,
            3 => table.address = 12_296 - size,
            4 => table.address = *self.rng.pick(&[0, 100, 4_096, 12_288]),
            5 => table.address = *self.rng.pick(&[16_384 - size, 16_384, 65_528]),
            _ => table.size = *self.rng.pick(&[0x1008, 0xE000, 0xFFF8]),
        }
    }

    pub fn type_outside(&mut self, table: &mut Planned) {
        let which = self.one_of(table.entries.len());
        let outside = [16_384, 16_384, 16_385, 32_768, 0xE000, 65_535];
        table.entries[which][1] = *self.rng.pick(&outside);
    }

    /// A base type beside a size that is not its own.
    pub fn wrong_size(&mut self, table: &mut Planned, types: &[Type]) {
        let based = types.iter().filter_map(|t| Some((t.address, t.size?)));
        let (address, size) = *self.rng.pick(&based.collect::<Vec<_>>());
        let base = *self.rng.pick(&[1, 2, 4, 8]);
        let sizes = [
            0,
            size - 1,
            size + 1,
            4 * size,
            size / 4,
            base,
            size + 0x1000,
            // An info at or above 0x8000.
            size + 0x2000,
        ];
        let wrong = match *self.rng.pick(&sizes) {
            same if same == size => size + 16,
            other => other,
        };
        let which = self.one_of(table.entries.len());
        table.entries[which][1] = address;
        table.entries[which][3] = self.info(wrong);
    }
}
