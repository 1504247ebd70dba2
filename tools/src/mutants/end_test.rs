//! The tool on a made-up crate of one definition file, with the prover: `most` and `fits` are guarded by a row, `free` by nothing.

use super::*;

const SOURCE: &str = "pub struct Nothing {}\n";

const TINY: &str = "use Rattle.std.specs.Prelude.{Bool, ℕ, ltb}

abbrev pub most : ℕ
most = 3

abbrev pub fits : ℕ → Bool
fits n = ltb n most

abbrev pub free : ℕ
free = 5
";

const ROWS: &str = "use mathlib.Core.Path.{◌≡◌, refl}
use mathlib.Core.Bool.{true, false}
use Rattle.tiny.specs.Tiny.{fits}

two : fits 2 ≡ true
two = refl

three : fits 3 ≡ false
three = refl
";

/// One of the two that survive is listed, and two that should not be.
const LISTED: &str = "Tiny.free: `5` becomes `4`
    why
Tiny.most: `3` becomes `4`
    why
Tiny.gone: x
    why
";

struct House(PathBuf);

impl House {
    fn new() -> House {
        let house = House(std::env::temp_dir().join(format!("mutants_test.{}", std::process::id())));
        house.put("tiny/src/lib.rt", SOURCE);
        house.put("tiny/specs/Lib.antt", "pub mod Tiny\n");
        house.put("tiny/specs/Tiny.antt", TINY);
        house.put("tiny/proofs/Lib.antt", "pub mod Rows\n");
        house.put("tiny/proofs/Rows.antt", ROWS);
        house.put("known.txt", LISTED);
        house
    }

    fn put(&self, file: &str, text: &str) {
        let path = self.0.join(file);
        std::fs::create_dir_all(path.parent().unwrap()).unwrap();
        std::fs::write(path, text).unwrap();
    }
}

impl Drop for House {
    fn drop(&mut self) {
        let _ = std::fs::remove_dir_all(&self.0);
    }
}

#[test]
fn what_nothing_guards_is_told_and_so_is_what_is_listed_wrongly() {
    let house = House::new();
    let words = Words { count: None, seed: 1, files: Vec::new() };
    let mut faults = run(&house.0.join("tiny"), &house.0.join("known.txt"), &words).unwrap();
    faults.sort();
    let due = [
        "it is listed as a survivor, and is no mutant: Tiny.gone: x",
        "it is listed as a survivor, and is refused: Tiny.most: `3` becomes `4`",
        "nothing would miss it: Tiny.free: `5` becomes `6`",
    ];
    assert_eq!(faults, due);
}
