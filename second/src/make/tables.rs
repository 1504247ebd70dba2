//! Tables of names: lists that can be registered, lists that cannot, and what
//! 0x11 tells of them.

use super::entries::Planned;
use super::Maker;

impl Maker {
    /// A list that can be registered, whatever stands in the target.
    pub fn tables_used(&mut self) {
        self.something_stands();
        let types = self.put_types();
        let count = *self.rng.pick(&[0, 1, 1, 2, 2, 3, 5, 15, 16, 16]);
        let mut planned = match self.rng.below(20) {
            0 => vec![self.whole_area(&types)],
            _ => self.planned(count, &types),
        };
        if let (Some(first), true) = (planned.first().cloned(), self.rng.once_in(4)) {
            // Two tables may overlap.
            *planned.last_mut().expect("there is a first") = first;
        }
        self.register_and_look(&planned);
        if let (Some(table), true) = (planned.first(), self.rng.once_in(2)) {
            // Bad from now on, and told all the same.
            self.poke(table.address + 2, &[0xFF, 0xFF]);
            self.send(0x11, &[0, 0]);
        }
    }

    /// A list with one thing wrong.
    pub fn tables_wrong(&mut self) {
        self.something_stands();
        let types = self.put_types();
        let count = *self.rng.pick(&[1, 1, 2, 3, 5, 16]);
        let mut planned = self.planned(count, &types);
        let which = self.one_of(planned.len());
        match self.rng.below(8) {
            0 => self.too_many(&mut planned),
            1 => self.broken_entries(&mut planned[which]),
            2 | 3 => self.out_of_area(&mut planned[which]),
            4 | 5 => self.type_outside(&mut planned[which]),
            _ => self.wrong_size(&mut planned[which], &types),
        }
        self.register_and_look(&planned);
    }

    /// Indexes up to, at and beyond the last, and data of other lengths.
    pub fn tables_asked(&mut self) {
        for _ in 0..1 + self.rng.below(3) {
            let index = self.table_index();
            self.send(0x11, &index.to_le_bytes());
        }
        if self.rng.once_in(3) {
            let count = *self.rng.pick(&[0, 1, 1, 3, 3, 4, 8, 64]);
            self.send(0x11, &vec![0; count]);
        }
    }

    pub fn table_index(&mut self) -> u16 {
        let named = self.named;
        let some = [0, named.saturating_sub(1), named, named, named + 1];
        match self.rng.below(4) {
            0 => self.rng.below(18) as u16,
            // Indexes of which one byte is that of a table.
            1 => *self.rng.pick(&[43, 255, 256, 257, 0x0F00, 0x2B2B, 65_535]),
            _ => *self.rng.pick(&some),
        }
    }

    /// A list between the bytes of a message; mostly it is refused, and the
    /// message goes on.
    pub fn register_between(&mut self) {
        match self.rng.below(4) {
            0 => self.register(&[]),
            1 => self.register(&[(8_192, 8); 17]),
            2 => self.register(&[(8_192, 8), (8_200, 9)]),
            _ => self.register(&[(12_288, 8)]),
        }
    }

    fn register(&mut self, list: &[(usize, usize)]) {
        let table = |(address, size): &(usize, usize)| format!(" {address} {size}");
        let words: String = list.iter().map(table).collect();
        self.lines.push(format!("G{words}"));
        self.named = list.len() as u16;
    }

    /// Puts the tables into memory and names them to the target, in the midst of
    /// a message; then looks at what is left of all that stood.
    fn register_and_look(&mut self, planned: &[Planned]) {
        self.put_tables(planned);
        let wire = self.whole();
        let cut = self.rng.below(wire.len() as u64) as usize;
        if cut > 0 {
            self.bytes(&wire[..cut]);
        }
        let list: Vec<_> = planned.iter().map(|t| (t.address, t.size)).collect();
        self.register(&list);
        self.bytes(&wire[cut..]);
        for command in [0xC5, 0xC3, 0xC6] {
            if !self.rng.once_in(3) {
                self.send(command, &[]);
            }
        }
        self.tables_asked();
    }

    /// A scope, a recorder and a command, not always all of them.
    fn something_stands(&mut self) {
        if self.rng.once_in(2) {
            let data = self.right_definitions(2);
            self.send(0x08, &data);
        }
        if self.rng.once_in(2) {
            let plan = self.plan();
            self.send_setup(&plan);
        }
        if self.rng.once_in(2) {
            self.send_command();
        }
    }
}
