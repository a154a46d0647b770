//! Counting of checks and the closing line.

use std::process::ExitCode;

/// Failures are printed as they come, up to a number.
const PRINTED: u64 = 20;

pub struct Report {
    name: &'static str,
    cases: u64,
    failed: u64,
    checks: u64,
    failed_checks: u64,
}

impl Report {
    pub fn new(name: &'static str) -> Self {
        Report { name, cases: 0, failed: 0, checks: 0, failed_checks: 0 }
    }

    /// One of many random cases. The explanation is made only on failure.
    pub fn case(&mut self, good: bool, explain: impl FnOnce() -> String) {
        self.cases += 1;
        if !good {
            self.failed += 1;
            if self.failed <= PRINTED {
                println!("failed: {}", explain());
            }
        }
    }

    /// An explicit test, or the sum of a random one.
    pub fn check(&mut self, good: bool, what: &str) {
        self.checks += 1;
        if !good {
            self.failed_checks += 1;
            println!("failed: {what}");
        }
    }

    /// An explicit test that is a case of its own.
    pub fn explicit(&mut self, good: bool, what: &str) {
        self.cases += 1;
        self.failed += u64::from(!good);
        self.check(good, what);
    }

    pub fn failed(&self) -> u64 {
        self.failed
    }

    /// Prints the checks and the closing line; the exit code says whether all was well.
    pub fn finish(self) -> ExitCode {
        let passed = self.checks - self.failed_checks;
        println!("{}: {passed} checks passed, {} failed", self.name, self.failed_checks);
        println!("{}: {} cases, {} failed", self.name, self.cases, self.failed);
        if self.failed == 0 && self.failed_checks == 0 && self.cases > 0 {
            ExitCode::SUCCESS
        } else {
            ExitCode::FAILURE
        }
    }
}
