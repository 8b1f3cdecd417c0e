//! Every run says how many cases it compared and how many differed, and shows by a control that it would have seen one.
use std::fmt::Debug;

#[derive(Default)]
pub struct Report {
    passed: usize,
    failed: usize,
}

impl Report {
    /// One check: prints what was seen, and counts it.
    pub fn check(&mut self, holds: bool, says: &str) {
        println!("{} {says}", if holds { "pass" } else { "FAIL" });
        if holds {
            self.passed += 1;
        } else {
            self.failed += 1;
        }
    }

    /// Compares case by case. The control flips one expected answer and must then find that one difference more.
    pub fn compare<T: PartialEq + Debug>(&mut self, what: &str, got: &[T], mut expected: Vec<T>, flip: impl Fn(&T) -> T) {
        assert_eq!(got.len(), expected.len(), "{what}: as many answers as cases");
        let differ = differences(got, &expected);
        let place = (got.len() * 2 / 3..got.len()).find(|&k| got[k] == expected[k]);
        let seen = place.is_some_and(|k| {
            expected[k] = flip(&expected[k]);
            differences(got, &expected) == differ + 1
        });
        let first = got.iter().zip(&expected).position(|(g, e)| g != e).filter(|_| differ > 0);
        let shown = first.map_or(String::new(), |k| format!("; first at case {k}: {:?}, expected {:?}", got[k], expected[k]));
        let says = format!(
            "{what}: {} cases, {differ} differ; control {}{shown}",
            got.len(),
            if seen { "found its one" } else { "was not found" }
        );
        self.check(differ == 0 && seen, &says);
    }

    /// Cases that were counted as they ran.
    pub fn tallied(&mut self, what: &str, tally: Tally) {
        let Tally { cases, differ, control } = tally;
        let says = format!("{what}: {cases} cases, {differ} differ; control reports {control}");
        self.check(differ == 0 && control == 1, &says);
    }

    /// The closing line, and the exit status that goes with it.
    pub fn close(self) -> ! {
        println!("{} passed, {} failed", self.passed, self.failed);
        std::process::exit((self.failed > 0) as i32)
    }
}

/// Counts cases as they run. At one of them the expected answer is flipped as well: the control must report that one.
#[derive(Default)]
pub struct Tally {
    cases: usize,
    differ: usize,
    control: usize,
}

impl Tally {
    const CONTROL: usize = 1000;

    /// `right(false)` says whether the case came out as expected, `right(true)` whether it came out as the flipped answer.
    pub fn case(&mut self, right: impl Fn(bool) -> bool) {
        self.cases += 1;
        self.differ += !right(false) as usize;
        if self.cases == Tally::CONTROL {
            self.control += !right(true) as usize;
        }
    }
}

fn differences<T: PartialEq>(one: &[T], other: &[T]) -> usize {
    one.iter().zip(other).filter(|(a, b)| a != b).count()
}
