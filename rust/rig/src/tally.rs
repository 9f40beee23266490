//! Counts cases by class, keeps the first difference, and prints both.

pub struct Tally {
    name: String,
    classes: Vec<(&'static str, u64)>,
    failed: u64,
    first_difference: Option<String>,
}

impl Tally {
    pub fn new(name: impl Into<String>) -> Self {
        Self { name: name.into(), classes: Vec::new(), failed: 0, first_difference: None }
    }

    pub fn none_failed(&self) -> bool {
        self.failed == 0
    }

    #[cfg(carried)]
    pub fn was_asked(&self) -> bool {
        self.failed > 0 || !self.classes.is_empty()
    }

    /// One case of a class: agreed, or a difference in words.
    pub fn count(&mut self, class: &'static str, outcome: Result<(), String>) {
        match outcome {
            Ok(()) => self.passed(class, 1),
            Err(difference) => {
                self.failed += 1;
                self.first_difference.get_or_insert(difference);
            }
        }
    }

    fn passed(&mut self, class: &'static str, cases: u64) {
        match self.classes.iter_mut().find(|(known, _)| *known == class) {
            Some((_, count)) => *count += cases,
            None => self.classes.push((class, cases)),
        }
    }

    /// Another share of the same cases.
    pub fn add(&mut self, other: Self) {
        other.classes.into_iter().for_each(|(class, cases)| self.passed(class, cases));
        self.failed += other.failed;
        self.first_difference = self.first_difference.take().or(other.first_difference);
    }

    /// Prints the counts; true if nothing differed and something was tried.
    pub fn finish(self) -> bool {
        let Self { name, mut classes, failed, first_difference } = self;
        classes.sort();
        for (class, count) in &classes {
            println!("{name}: {count} {class}");
        }
        if let Some(difference) = first_difference {
            println!("{name}: first difference: {difference}");
        }
        let passed: u64 = classes.iter().map(|(_, count)| count).sum();
        let failed = if passed + failed == 0 { 1 } else { failed };
        println!("{name}: {passed} passed, {failed} failed");
        failed == 0
    }
}
