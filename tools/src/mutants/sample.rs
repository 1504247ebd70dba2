//! Some of all mutants, by a seed: definitions take turns, so that none is tried twice before each was tried once.

use crate::mutant::Mutant;
use std::collections::BTreeMap;

/// SplitMix64.
struct Random(u64);

impl Random {
    fn next(&mut self) -> u64 {
        self.0 = self.0.wrapping_add(0x9E37_79B9_7F4A_7C15);
        let mut mixed = self.0;
        mixed = (mixed ^ (mixed >> 30)).wrapping_mul(0xBF58_476D_1CE4_E5B9);
        mixed = (mixed ^ (mixed >> 27)).wrapping_mul(0x94D0_49BB_1331_11EB);
        mixed ^ (mixed >> 31)
    }

    fn shuffle<T>(&mut self, some: &mut [T]) {
        for last in (1..some.len()).rev() {
            some.swap(last, (self.next() % (last as u64 + 1)) as usize);
        }
    }
}

/// All of them, in the order in which they are to be tried.
pub fn ordered(mutants: Vec<Mutant>, seed: u64) -> Vec<Mutant> {
    let mut random = Random(seed);
    let mut by_definition: BTreeMap<(String, String), Vec<Mutant>> = BTreeMap::new();
    for mutant in mutants {
        by_definition.entry((mutant.file.clone(), mutant.definition.clone())).or_default().push(mutant);
    }
    let mut turns = Vec::new();
    for (_, mut some) in by_definition {
        random.shuffle(&mut some);
        turns.extend(some.into_iter().enumerate());
    }
    random.shuffle(&mut turns);
    turns.sort_by_key(|(turn, _)| *turn);
    turns.into_iter().map(|(_, mutant)| mutant).collect()
}

#[cfg(test)]
mod tests {
    use super::*;

    fn some() -> Vec<Mutant> {
        let one = |number: usize| Mutant {
            file: "Tiny".to_string(),
            definition: format!("f{}", number % 5),
            name: number.to_string(),
            text: String::new(),
        };
        (0..40).map(one).collect()
    }

    fn names(seed: u64) -> Vec<String> {
        ordered(some(), seed).into_iter().map(|mutant| mutant.name).collect()
    }

    #[test]
    fn the_same_seed_gives_the_same_order() {
        assert_eq!(names(7), names(7));
        assert_ne!(names(7), names(8));
    }

    #[test]
    fn definitions_take_turns() {
        let mut first: Vec<String> = ordered(some(), 3)[..5].iter().map(|mutant| mutant.definition.clone()).collect();
        first.sort();
        assert_eq!(first, ["f0", "f1", "f2", "f3", "f4"]);
    }
}
