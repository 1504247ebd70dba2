//! What the prover said of the mutants, by file.

use crate::prover::Verdict;
use std::collections::BTreeMap;

#[derive(Default, Clone, Copy, Debug, PartialEq)]
pub struct Tally {
    pub refused: usize,
    pub known: usize,
    pub survived: usize,
    pub untold: usize,
}

#[derive(Default)]
pub struct Score {
    by_file: BTreeMap<String, Tally>,
    pub all: Tally,
    /// mutants that are no definitions
    pub none: usize,
    /// what makes the run fail
    pub faults: Vec<String>,
}

impl Score {
    /// How many the prover was asked about to some purpose.
    pub fn tried(&self) -> usize {
        self.all.refused + self.all.known + self.all.survived + self.all.untold
    }

    /// Counts a verdict, and gives the word for it.
    pub fn count(&mut self, file: &str, name: &str, verdict: &Verdict, is_known: bool) -> String {
        let mut add = |part: fn(&mut Tally) -> &mut usize| {
            *part(self.by_file.entry(file.to_string()).or_default()) += 1;
            *part(&mut self.all) += 1;
        };
        match verdict {
            Verdict::NoDefinition => {
                self.none += 1;
                "no definition".to_string()
            }
            Verdict::Refused(by) => {
                add(|tally| &mut tally.refused);
                if is_known {
                    self.faults.push(format!("it is listed as a survivor, and is refused: {name}"));
                }
                format!("refused by {by}")
            }
            Verdict::Survived if is_known => {
                add(|tally| &mut tally.known);
                "survives, as is known".to_string()
            }
            Verdict::Survived => {
                add(|tally| &mut tally.survived);
                self.faults.push(format!("nothing would miss it: {name}"));
                "SURVIVES".to_string()
            }
            Verdict::Untold(why) => {
                add(|tally| &mut tally.untold);
                format!("no verdict: {why}")
            }
        }
    }

    pub fn table(&self) -> String {
        let width = self.by_file.keys().map(String::len).fold(12, usize::max);
        let mut text = format!("| {:width$} | refused | known | survive | untold |\n", "definitions");
        text += &format!("|-{:-<width$}-|--------:|------:|--------:|-------:|\n", "");
        let rows = self.by_file.iter().map(|(file, tally)| (file.as_str(), tally)).chain([("all", &self.all)]);
        for (name, tally) in rows {
            text += &format!("| {name:width$} | {:7} | {:5} | {:7} | {:6} |\n", tally.refused, tally.known, tally.survived, tally.untold);
        }
        text
    }
}

#[cfg(test)]
mod tests {
    use super::*;

    #[test]
    fn verdicts_are_counted_by_file() {
        let mut score = Score::default();
        let refused = Verdict::Refused("Rows.rows-hold".to_string());
        assert_eq!(score.count("Gate", "a", &refused, false), "refused by Rows.rows-hold");
        score.count("Gate", "b", &Verdict::Survived, true);
        score.count("Run", "c", &Verdict::NoDefinition, false);
        assert_eq!((score.tried(), score.none, score.faults.len()), (2, 1, 0));
        assert!(score.table().contains("| Gate         |       1 |     1 |       0 |      0 |"));
    }

    #[test]
    fn a_survivor_that_is_not_listed_and_a_listed_one_that_is_refused_are_faults() {
        let mut score = Score::default();
        score.count("Gate", "a", &Verdict::Survived, false);
        score.count("Gate", "b", &Verdict::Refused(String::new()), true);
        assert_eq!(score.faults.len(), 2);
    }
}
