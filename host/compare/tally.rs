//! Counts cases and prints the first differences of each group.

use std::fmt::Debug;

/// Differences printed in each group; the rest are only counted.
const SHOWN: u64 = 10;

/// All groups together.
#[derive(Default)]
pub struct Tally {
    cases: u64,
    different: u64,
}

/// One function, or one kind of input to it.
pub struct Group {
    name: &'static str,
    cases: u64,
    different: u64,
}

impl Tally {
    /// Runs one group and prints its line, `name cases`.
    pub fn group(&mut self, name: &'static str, run: impl FnOnce(&mut Group)) {
        let mut group = Group { name, cases: 0, different: 0 };
        run(&mut group);
        assert!(group.cases > 0, "group {name} compared nothing");
        println!("{name} {}", group.cases);
        self.cases += group.cases;
        self.different += group.different;
    }

    /// The tallies of several comparisons together.
    pub fn sum(tallies: impl IntoIterator<Item = Tally>) -> Tally {
        let mut sum = Tally::default();
        for tally in tallies {
            sum.cases += tally.cases;
            sum.different += tally.different;
        }
        sum
    }

    /// Prints the count that the gate reads. True if something was compared and all was equal.
    pub fn finish(self) -> bool {
        println!("compared {} cases, {} different", self.cases, self.different);
        self.cases > 0 && self.different == 0
    }
}

impl Group {
    /// Compares the two answers to one input; `input` is called only where they differ.
    pub fn same<A: PartialEq + Debug>(
        &mut self,
        ours: A,
        rusts: A,
        input: impl FnOnce() -> String,
    ) {
        self.cases += 1;
        if ours == rusts {
            return;
        }
        self.different += 1;
        if self.different <= SHOWN {
            println!("DIFFERENT {}({}): ours {ours:x?}, the Rust's {rusts:x?}", self.name, input());
        }
    }
}
