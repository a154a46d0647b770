//! Writes cases as theorems about the definitions in crates/rules: what the peer answers must be
//! what `serve_at`, `widened` and `narrowed` compute to. `definitions/run` has the prover check them.
//!
//! Arguments: the folder of the definitions, and the folder for two crates' proofs: `cases`, which
//! must be proved, and `wrong`, in which every expected answer is off by one and none may be.
//! DEFINITION_CASES (150) and SEED come from the environment.

use harness::cases::{Case, Cases};
use harness::random::{number_from_environment, Random};
use peer::caller::{Call, Caller};
use peer::form::Form;
use peer::moves::{moved, Way};
use std::fmt::Write as _;
use std::fs;
use std::io;
use std::path::Path;

/// Sheets together no longer than this: what the prover computes quickly.
const BYTES: usize = 4_000;
/// Theorems to a file.
const TO_A_FILE: usize = 25;
/// Files that hold no definitions of the service.
const NOT_OPENED: [&str; 2] = ["Lib", "Places"];

fn main() -> io::Result<()> {
    let arguments: Vec<String> = std::env::args().collect();
    let [_, specs, out] = arguments.as_slice() else {
        return Err(io::Error::new(io::ErrorKind::InvalidInput, "two folders are wanted"));
    };
    let opened = definitions(Path::new(specs))?;
    let total = number_from_environment("DEFINITION_CASES", 150) as usize;
    let theorems = theorems(total);
    let out = Path::new(out);
    let right: Vec<String> = theorems.iter().map(|theorem| theorem.text(&opened, false)).collect();
    write_crate(&out.join("cases"), &opened, &right)?;
    let wrong: Vec<String> =
        theorems.iter().take(10).map(|theorem| theorem.text(&opened, true)).collect();
    write_crate(&out.join("wrong"), &opened, &wrong)
}

/// The modules and, after each, the names that its definitions can be opened by.
fn definitions(specs: &Path) -> io::Result<Vec<(String, Vec<String>)>> {
    let mut files: Vec<_> = fs::read_dir(specs)?.collect::<Result<_, _>>()?;
    files.sort_by_key(|file| file.file_name());
    let mut opened = Vec::new();
    for file in files {
        let path = file.path();
        let module = path.file_stem().unwrap_or_default().to_string_lossy().into_owned();
        if path.extension().is_none_or(|ending| ending != "antt") || NOT_OPENED.contains(&&*module)
        {
            continue;
        }
        let mut names = Vec::new();
        let mut mutual = false;
        for line in fs::read_to_string(&path)?.lines() {
            let indented = line.starts_with(' ');
            mutual = line == "unfoldable mutual" || (mutual && (indented || line.is_empty()));
            let words: Vec<&str> = line.split_whitespace().collect();
            match words.as_slice() {
                ["unfoldable", "pub", name, ..] => names.push((*name).to_owned()),
                ["pub", name, ":", ..] if mutual => names.push((*name).to_owned()),
                _ => {}
            }
        }
        opened.push((module, names));
    }
    Ok(opened)
}

struct Theorem {
    number: usize,
    /// What is computed.
    asked: String,
    expected: Result<Vec<u8>, u32>,
}

/// Calls in either form, for either program, and every fifth a move of the directory.
fn theorems(total: usize) -> Vec<Theorem> {
    let mut cases = Cases::of(&[Form::Narrow, Form::Wide], Random::from_environment());
    let mut theorems = Vec::new();
    while theorems.len() < total {
        let Case { form, dir, perm, req, .. } = cases.next_case();
        if dir.len() + perm.len() + req.len() > BYTES {
            continue;
        }
        let number = theorems.len() + 1;
        let (asked, expected) = if number % 5 == 0 {
            let (way, name) = match form {
                Form::Narrow => (Way::There, "widened"),
                Form::Wide => (Way::Back, "narrowed"),
            };
            let length = moved(way, &dir, usize::MAX).map_or(200, |sheet| sheet.len());
            let room = cases.room_to_move(length);
            (format!("{name} {} {room}", bytes(&dir)), moved(way, &dir, room))
        } else {
            let call = Call::new(Caller::ALL[number % Caller::ALL.len()], form);
            let answer = peer::serve_for(call, &dir, &perm, &req, usize::MAX);
            let room = cases.room(call.caller, answer.as_ref().map_or(200, Vec::len));
            let asked = format!(
                "serve_at {} {} {} {} {} {room}",
                format_of(form),
                limits(call.caller),
                bytes(&dir),
                bytes(&perm),
                bytes(&req),
            );
            (asked, peer::serve_for(call, &dir, &perm, &req, room))
        };
        theorems.push(Theorem { number, asked, expected });
    }
    theorems
}

impl Theorem {
    fn text(&self, opened: &[(String, Vec<String>)], wrong: bool) -> String {
        let expected = match &self.expected {
            Ok(answer) => {
                let mut answer = answer.clone();
                if wrong {
                    if let Some(last) = answer.last_mut() {
                        *last += 1;
                    }
                }
                format!("accept {}", bytes(&answer))
            }
            Err(refusal) => format!("refuse {}", refusal + u32::from(wrong)),
        };
        let mut text = format!("case-{} : {} ≡ {expected}\nunfolding", self.number, self.asked);
        for (module, names) in opened {
            for name in names {
                let _ = write!(text, " {module}.{name}");
            }
        }
        let _ = writeln!(text, "\ncase-{} = refl\n", self.number);
        text
    }
}

/// The definition of a form.
fn format_of(form: Form) -> &'static str {
    match form {
        Form::Narrow => "narrow",
        Form::Wide => "wide",
    }
}

/// The definition of a program's limits.
fn limits(caller: Caller) -> &'static str {
    match caller {
        Caller::Exchange => "exchange",
        Caller::Panel => "panel",
    }
}

/// A list of bytes: a text where all are printed characters or ends of lines.
fn bytes(sheet: &[u8]) -> String {
    let printed = |byte: &u8| *byte == b'\n' || (b' '..=b'~').contains(byte);
    if sheet.is_empty() {
        return "[]".to_owned();
    }
    if !sheet.iter().all(printed) {
        let numbers: String = sheet.iter().map(|byte| format!("{byte} ∷ ")).collect();
        return format!("({numbers}[])");
    }
    let mut text = String::from("(bytes_of \"");
    for &byte in sheet {
        match byte {
            b'\n' => text.push_str("\\n"),
            b'"' | b'\\' => text.extend(['\\', char::from(byte)]),
            _ => text.push(char::from(byte)),
        }
    }
    text + "\")"
}

fn write_crate(
    folder: &Path,
    opened: &[(String, Vec<String>)],
    theorems: &[String],
) -> io::Result<()> {
    fs::create_dir_all(folder.join("proofs"))?;
    fs::create_dir_all(folder.join("src"))?;
    fs::write(folder.join("src/lib.rt"), "// Cases as theorems.\n")?;
    let mut header = String::from(
        "use Rattle.std.specs.Prelude.{◌≡◌, refl, [], ◌∷◌}\n\
         use Rattle.rules.proofs.Examples.{bytes_of}\nuse Rattle.rules.specs.Judge.{accept, refuse}\n\
         use Rattle.rules.specs.Sheet.{narrow, wide}\n\
         use Rattle.rules.specs.Serve.{exchange, panel, serve_at}\nuse Rattle.rules.specs.Move.{widened, narrowed}\n",
    );
    for (module, _) in opened {
        let _ = writeln!(header, "use Rattle.rules.specs.{module}");
    }
    let mut modules = String::new();
    for (number, part) in theorems.chunks(TO_A_FILE).enumerate() {
        let _ = writeln!(modules, "pub mod Part{number}");
        let text = format!("{header}\n{}", part.concat());
        fs::write(folder.join(format!("proofs/Part{number}.antt")), text)?;
    }
    fs::write(folder.join("proofs/Lib.antt"), modules)
}
