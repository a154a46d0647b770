//! The small program of document 01: it reads the files dir, perm and request, or those that its
//! arguments name, and prints the answer or "refused", a blank and the number.
//!
//! DINGHY_PROGRAM is the program under test, else the peer's. SEED and PROGRAM_CASES (200) come
//! from the environment.

use harness::cases::Cases;
use harness::limits::{large_directory, open_permissions, search};
use harness::random::{number_from_environment, Random};
use harness::report::Report;
use peer::builder::FilterLines;
use peer::form::Form;
use std::io::Result;
use std::path::PathBuf;
use std::process::{Command, ExitCode};

const ROOM: usize = 65_536;
const NAMES: [&str; 3] = ["dir", "perm", "request"];

/// The program, the folder in which it is run, and what came of it.
struct Trial {
    program: PathBuf,
    folder: PathBuf,
    report: Report,
}

fn main() -> Result<ExitCode> {
    let program = match std::env::var_os("DINGHY_PROGRAM") {
        Some(program) => PathBuf::from(program).canonicalize()?,
        None => std::env::current_exe()?.with_file_name("peer"),
    };
    println!("program: {}", program.file_name().unwrap_or_default().to_string_lossy());
    let folder = std::env::temp_dir().join(format!("small_program.{}", std::process::id()));
    std::fs::create_dir(&folder)?;
    let mut trial = Trial { program, folder, report: Report::new("small_program") };
    let total = number_from_environment("PROGRAM_CASES", 200);
    let mut cases = Cases::of(&[Form::Narrow], Random::from_environment());
    for number in 1..=total {
        let case = cases.next_case();
        trial.answers(&format!("case {number}"), [&case.dir, &case.perm, &case.req], &[])?;
    }
    trial.lengths()?;
    trial.files()?;
    std::fs::remove_dir_all(&trial.folder)?;
    let equal = trial.report.failed() == 0;
    trial.report.check(equal, "the program prints something else");
    Ok(trial.report.finish())
}

impl Trial {
    /// An answer that is too long, and files longer than a sheet may be.
    fn lengths(&mut self) -> Result<()> {
        let request = search(FilterLines::Present(1)).to_bytes(Form::Narrow);
        let (dir, perm) =
            (large_directory().to_bytes(Form::Narrow), open_permissions().to_bytes(Form::Narrow));
        self.answers("an answer longer than 65,536 bytes", [&dir, &perm, &request], &[])?;
        for length in [65_536, 65_537, 65_538, 200_000] {
            let long = vec![b' '; length];
            self.answers("a long directory", [&long, &perm, &request], &[])?;
            self.answers("long permissions", [b"", &long, &request], &[])?;
            self.answers("a long request", [b"", b"", &long], &[])?;
        }
        Ok(())
    }

    /// Files with other names, and files that cannot be read: of those standard error is told, and
    /// nothing is printed.
    fn files(&mut self) -> Result<()> {
        let perm = open_permissions().to_bytes(Form::Narrow);
        let request = search(FilterLines::Present(1)).to_bytes(Form::Narrow);
        self.answers("other names", [b"", &perm, &request], &["a", "b", "c"])?;
        self.answers("one other name", [b"", &perm, &request], &["a"])?;
        for wrong in ["absent", "."] {
            for place in 0..3 {
                let mut names = NAMES;
                names[place] = wrong;
                let output =
                    Command::new(&self.program).args(names).current_dir(&self.folder).output()?;
                let ended = output.status.code().is_some();
                let told = ended && output.stdout.is_empty() && !output.stderr.is_empty();
                self.report.case(told, || format!("{wrong} as argument {}", place + 1));
            }
        }
        Ok(())
    }

    /// Runs the program on the sheets, in files of these names or else the usual ones.
    fn answers(&mut self, what: &str, sheets: [&[u8]; 3], names: &[&str]) -> Result<()> {
        for (place, sheet) in sheets.iter().enumerate() {
            let name = names.get(place).unwrap_or(&NAMES[place]);
            std::fs::write(self.folder.join(name), sheet)?;
        }
        let output = Command::new(&self.program).args(names).current_dir(&self.folder).output()?;
        let expected = peer::serve(sheets[0], sheets[1], sheets[2], ROOM)
            .unwrap_or_else(|refusal| format!("refused {refusal}\n").into_bytes());
        let good = output.status.success() && output.stderr.is_empty();
        self.report.case(good && output.stdout == expected, || {
            let text = |bytes: &[u8]| String::from_utf8_lossy(bytes).into_owned();
            let (printed, said) = (text(&output.stdout), text(&output.stderr));
            let expected = text(&expected);
            format!("{what}: {}\nexpected\n{expected}printed\n{printed}said\n{said}", output.status)
        });
        Ok(())
    }
}
