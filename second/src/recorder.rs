//! The recorder, derived from the list of the ticks since the start.
//!
//! No counter is carried from tick to tick. The list says what the memory held
//! at each tick; the ticks that take sets, the trigger, the stop, the places
//! and the start index are computed from it. Ticks at which the memory held the
//! same recorded bytes stand in the list as one stretch. A tick changes only
//! the recorder buffer, where no recorded variable lies, so ticks in a row
//! always make one stretch.

use crate::areas::BUFFER;
use crate::request::Setup;
use crate::trigger::Trigger;

/// Ticks and sets are counted wider than any script can reach: set numbers do
/// not wrap, however long the recorder runs.
type Count = u128;

/// Ticks in a row that found the same bytes.
#[derive(Clone)]
struct Stretch {
    /// The number since the start of the first of them, counted from 0.
    first: Count,
    ticks: Count,
    /// The variables' bytes "in the order of the definitions".
    set: Vec<u8>,
    /// The trigger variable's value, where the setup has a trigger.
    value: i64,
}

impl Stretch {
    fn end(&self) -> Count {
        self.first + self.ticks
    }
}

#[derive(Clone)]
pub struct Recorder {
    setup: Setup,
    trigger: Option<Trigger>,
    /// The list of the ticks since the start.
    list: Vec<Stretch>,
    /// Nothing has started it yet, or a stop came over the wire.
    stands: bool,
    /// What `search` found in the stretches before `searched`.
    found: Option<Count>,
    searched: usize,
}

impl Recorder {
    /// "A recorder prepared and not started": it stands, and "counts as having
    /// taken no set".
    pub fn prepared(setup: Setup) -> Recorder {
        Recorder {
            trigger: Trigger::of(&setup),
            setup,
            list: Vec::new(),
            stands: true,
            found: None,
            searched: 0,
        }
    }

    /// A start forgets everything of the run before; the buffer's bytes stay.
    pub fn start(&mut self) {
        *self = Recorder::prepared(self.setup.clone());
        self.stands = false;
    }

    pub fn stop(&mut self) {
        self.stands = true;
    }

    /// Runs from a start until a stop came or all its sets are taken.
    pub fn runs(&self) -> bool {
        !self.stands && self.last_set().is_none_or(|last| self.taken() <= last)
    }

    pub fn has_no_set(&self) -> bool {
        self.taken() == 0
    }

    /// 'samples' sets are taken.
    pub fn is_full(&self) -> bool {
        self.taken() >= self.samples()
    }

    /// "The start index is 0 until 'samples' sets are taken, then the place
    /// that would be written next."
    pub fn start_index(&self) -> u16 {
        if self.is_full() {
            self.place(self.taken()) as u16
        } else {
            0
        }
    }

    /// So many ticks in a row. "A stopped recorder does nothing at it."
    pub fn ticks(&mut self, count: u64, memory: &mut [u8]) {
        if count == 0 || !self.runs() {
            return;
        }
        let before = self.taken();
        self.append(Count::from(count), memory);
        self.found = self.found.or_else(|| self.search(self.searched));
        self.searched = self.list.len() - 1;
        self.fill(before, self.taken(), memory);
    }

    /// Puts the ticks behind the list, with what the memory holds now.
    fn append(&mut self, ticks: Count, memory: &[u8]) {
        let variables = self.setup.variables.iter();
        let set: Vec<u8> = variables.flat_map(|v| v.of(memory)).copied().collect();
        let trigger = self.trigger.as_ref();
        let value = trigger.map_or(0, |t| t.value(self.setup.trigger.of(memory)));
        let first = self.tick_count();
        match self.list.last_mut() {
            Some(last) if last.set == set && last.value == value => last.ticks += ticks,
            _ => self.list.push(Stretch {
                first,
                ticks,
                set,
                value,
            }),
        }
    }

    /// Copies the sets from one number up to another to their places. Of sets
    /// that share a place the last stays, so the last 'samples' are enough.
    fn fill(&self, from: Count, to: Count, memory: &mut [u8]) {
        let from = from.max(to.saturating_sub(self.samples()));
        for number in from..to {
            let set = &self.stretch_of(number).set;
            // "Place p begins at byte 12,288 + p × set size"
            let begin = BUFFER + self.place(number) * set.len();
            memory[begin..begin + set.len()].copy_from_slice(set);
        }
    }

    /// "Set k since the start goes to place k modulo 'samples'"
    fn place(&self, number: Count) -> usize {
        (number % self.samples()) as usize
    }

    fn samples(&self) -> Count {
        Count::from(self.setup.samples)
    }

    /// The ticks from one set to the next.
    fn step(&self) -> Count {
        Count::from(self.setup.divider) + 1
    }

    fn tick_count(&self) -> Count {
        self.list.last().map_or(0, Stretch::end)
    }

    /// How many of the first so many ticks a set is due at: "the first tick
    /// takes a set, then every (time divider + 1)th".
    fn due(&self, ticks: Count) -> Count {
        ticks.div_ceil(self.step())
    }

    /// The sets taken: those due, up to the last before the stop.
    fn taken(&self) -> Count {
        let due = self.due(self.tick_count());
        self.last_set().map_or(due, |last| due.min(last + 1))
    }

    /// The set the recorder stops with: "At a trigger, the post-trigger number
    /// of further sets is taken; the recorder stops with the last."
    fn last_set(&self) -> Option<Count> {
        self.found
            .map(|number| number + Count::from(self.setup.post_trigger))
    }

    /// The stretch with the tick that takes a set.
    fn stretch_of(&self, number: Count) -> &Stretch {
        let tick = number * self.step();
        let behind = self.list.partition_point(|stretch| stretch.first <= tick);
        &self.list[behind - 1]
    }

    /// The number of the first set at which the trigger comes, in the stretches
    /// from an index on. Within a stretch the value stays, so only the first
    /// set of each can be one. Whatever stands before the last stretch stays as
    /// it is, so a later search may begin there.
    fn search(&self, from: usize) -> Option<Count> {
        let trigger = self.trigger.as_ref()?;
        self.list[from..].iter().find_map(|stretch| {
            let number = self.due(stretch.first);
            let inside = number < self.due(stretch.end());
            let fires = inside
                && match number {
                    0 => trigger.comes_first(stretch.value),
                    _ => trigger.comes(self.stretch_of(number - 1).value, stretch.value),
                };
            fires.then_some(number)
        })
    }
}
