//! The command line of the second program.

use std::ffi::OsString;
use std::fs;
use std::io::{self, Read, Write};
use std::os::unix::ffi::OsStrExt;
use std::path::Path;
use std::process::ExitCode;

use second::bounds::{FILE, TABLE};
use second::generate::{self, Case};
use second::{examples, programs, questions, tally, vectors, Refusal};

const USAGE: &str = "\
usage: second check FILE
       second objects FILE TYPE
       second count-values FILE TYPE FIELD KIND
       second values FILE TYPE FIELD KIND
       second listing FILE
       second build FILE
       second program-print
       second program-build
       second generate DIR [--seed N] [--count N]
       second counts [--seed N] [--count N]
       second vectors [PART]
       second questions
       second example-wear
       second example-slots
       second example-nine

FILE may be - for standard input. Status 0 is accepted, 1 refused or failed,
2 wrong use. A refusal is printed as `refused`, its number and its place,
parted by tabs. The two programs read standard input, write standard output
and print no place. --count is how many files are made by chance; listings are
half as many. vectors alone names the parts.
";

/// What a command comes to.
enum Outcome {
    Accepted(Vec<u8>),
    Refused(Refusal),
    /// The output is already written.
    Done(bool),
    WrongUse,
}

fn main() -> ExitCode {
    let arguments: Vec<OsString> = std::env::args_os().skip(1).collect();
    match run(&arguments).and_then(finish) {
        Ok(code) => code,
        Err(error) => {
            eprintln!("second: {error}");
            ExitCode::FAILURE
        }
    }
}

fn finish(outcome: Outcome) -> io::Result<ExitCode> {
    let mut output = io::stdout().lock();
    match outcome {
        Outcome::Accepted(bytes) => {
            output.write_all(&bytes)?;
            output.flush()?;
            Ok(ExitCode::SUCCESS)
        }
        Outcome::Refused(refusal) => {
            writeln!(output, "refused\t{}\t{}", refusal.number, refusal.place)?;
            Ok(ExitCode::FAILURE)
        }
        Outcome::Done(true) => Ok(ExitCode::SUCCESS),
        Outcome::Done(false) => Ok(ExitCode::FAILURE),
        Outcome::WrongUse => {
            eprint!("{USAGE}");
            Ok(ExitCode::from(2))
        }
    }
}

fn run(arguments: &[OsString]) -> io::Result<Outcome> {
    let Some((command, rest)) = arguments.split_first() else {
        return Ok(Outcome::WrongUse);
    };
    match (command.to_str().unwrap_or(""), rest) {
        ("check", [file]) => Ok(check(&input(file)?)),
        ("objects", [file, name]) => Ok(objects(&input(file)?, name.as_bytes())),
        ("count-values", [file, name, field, kind]) => {
            of_field(count_values, file, name, field, kind)
        }
        ("values", [file, name, field, kind]) => of_field(values, file, name, field, kind),
        ("listing", [file]) => Ok(listing(&input(file)?)),
        ("build", [file]) => Ok(build(&input(file)?)),
        ("program-print", []) => program(programs::print),
        ("program-build", []) => program(programs::build),
        ("generate", [folder, options @ ..]) => match Options::read(options) {
            Some(options) => write_cases(Path::new(folder), options),
            None => Ok(Outcome::WrongUse),
        },
        ("vectors", []) => Ok(Outcome::Accepted(lines(&vectors::parts()))),
        ("vectors", [part]) => Ok(part
            .to_str()
            .and_then(vectors::text)
            .map_or(Outcome::WrongUse, |text| {
                Outcome::Accepted(text.into_bytes())
            })),
        ("questions", []) => Ok(Outcome::Accepted(questions::text().into_bytes())),
        ("example-wear", []) => Ok(Outcome::Accepted(examples::wear())),
        ("example-slots", []) => Ok(Outcome::Accepted(examples::slots())),
        ("example-nine", []) => Ok(Outcome::Accepted(examples::nine())),
        ("counts", options) => match Options::read(options) {
            Some(options) => Ok(counts(options)),
            None => Ok(Outcome::WrongUse),
        },
        _ => Ok(Outcome::WrongUse),
    }
}

fn input(name: &OsString) -> io::Result<Vec<u8>> {
    if name == "-" {
        let mut bytes = Vec::new();
        io::stdin().lock().read_to_end(&mut bytes)?;
        return Ok(bytes);
    }
    fs::read(name)
}

/// A work table as long as the paper asks for.
fn table() -> Vec<u32> {
    vec![0; TABLE]
}

fn answered(answer: Result<Vec<u8>, Refusal>) -> Outcome {
    match answer {
        Ok(bytes) => Outcome::Accepted(bytes),
        Err(refusal) => Outcome::Refused(refusal),
    }
}

fn check(file: &[u8]) -> Outcome {
    answered(second::check(file, &mut table()).map(|()| b"accepted\n".to_vec()))
}

fn objects(file: &[u8], name: &[u8]) -> Outcome {
    answered(second::objects(file, name, &mut table()).map(|n| format!("{n}\n").into_bytes()))
}

/// Asks about a field of a file, in the terms of the command line.
fn of_field(
    ask: fn(&[u8], &[u8], &[u8], u64) -> Result<Vec<u8>, Refusal>,
    file: &OsString,
    name: &OsString,
    field: &OsString,
    kind: &OsString,
) -> io::Result<Outcome> {
    let Some(kind) = kind.to_str().and_then(|kind| kind.parse().ok()) else {
        return Ok(Outcome::WrongUse);
    };
    let answer = ask(&input(file)?, name.as_bytes(), field.as_bytes(), kind);
    Ok(answered(answer))
}

fn count_values(file: &[u8], name: &[u8], field: &[u8], kind: u64) -> Result<Vec<u8>, Refusal> {
    let count = second::count_values(file, name, field, kind, &mut table())?;
    Ok(format!("{count}\n").into_bytes())
}

/// Asks how many there are and lends just that much.
fn values(file: &[u8], name: &[u8], field: &[u8], kind: u64) -> Result<Vec<u8>, Refusal> {
    let mut work = table();
    let count = second::count_values(file, name, field, kind, &mut work)?;
    let mut out = vec![0; count];
    second::fill_values(file, name, field, kind, &mut work, &mut out)?;
    let lines = out.iter().map(|value| format!("{value}\n"));
    Ok(lines.collect::<String>().into_bytes())
}

/// The length of a listing is not known beforehand, and a small file can have
/// a long one; more is lent until it is enough.
fn listing(file: &[u8]) -> Outcome {
    let mut room = 4 * file.len() + 1024;
    loop {
        let mut out = vec![0; room];
        match second::listing(file, &mut table(), &mut out) {
            Err(refusal) if refusal.number == second::refusal::ROOM => room *= 4,
            answer => {
                return answered(answer.map(|length| {
                    out.truncate(length);
                    out
                }))
            }
        }
    }
}

fn build(text: &[u8]) -> Outcome {
    let mut out = vec![0; FILE];
    answered(second::build(text, &mut table(), &mut out).map(|length| {
        out.truncate(length);
        out
    }))
}

fn program(program: fn(&[u8]) -> (bool, Vec<u8>)) -> io::Result<Outcome> {
    let accepted = programs::run(program, io::stdin().lock(), io::stdout().lock())?;
    Ok(Outcome::Done(accepted))
}

/// What to make files and listings from.
struct Options {
    seed: u64,
    files: usize,
    listings: usize,
}

impl Options {
    fn read(words: &[OsString]) -> Option<Options> {
        let mut options = Options {
            seed: generate::SEED,
            files: generate::FILES,
            listings: generate::LISTINGS,
        };
        for pair in words.chunks(2) {
            let [name, value] = pair else {
                return None;
            };
            let value: u64 = value.to_str()?.parse().ok()?;
            match name.to_str()? {
                "--seed" => options.seed = value,
                "--count" => {
                    options.files = usize::try_from(value).ok()?;
                    options.listings = options.files / 2;
                }
                _ => return None,
            }
        }
        Some(options)
    }
}

fn lines(words: &[&str]) -> Vec<u8> {
    let lines = words.iter().map(|word| format!("{word}\n"));
    lines.collect::<String>().into_bytes()
}

fn counts(options: Options) -> Outcome {
    let files = tally::of_files(&generate::files(options.seed, options.files));
    let listings = tally::of_listings(&generate::listings(options.seed, options.listings));
    let text = files.lines("files") + "\n" + &listings.lines("listings");
    Outcome::Accepted(text.into_bytes())
}

/// Writes all cases into a folder, and an index of them: name, answer (0 for
/// accepted), place and label, parted by tabs.
fn write_cases(folder: &Path, options: Options) -> io::Result<Outcome> {
    fs::create_dir_all(folder)?;
    let mut index = String::new();
    for (number, case) in generate::files(options.seed, options.files)
        .iter()
        .enumerate()
    {
        let answer = second::check(&case.bytes, &mut table());
        let name = format!("file-{number:05}.sf");
        write_case(folder, &name, case, answer, &mut index)?;
    }
    let mut out = vec![0; FILE];
    let listings = generate::listings(options.seed, options.listings);
    for (number, case) in listings.iter().enumerate() {
        let answer = second::build(&case.bytes, &mut table(), &mut out).map(|_| ());
        let name = format!("listing-{number:05}.txt");
        write_case(folder, &name, case, answer, &mut index)?;
    }
    fs::write(folder.join("index"), index)?;
    Ok(Outcome::Done(true))
}

fn write_case(
    folder: &Path,
    name: &str,
    case: &Case,
    answer: Result<(), Refusal>,
    index: &mut String,
) -> io::Result<()> {
    let (number, place) = match answer {
        Ok(()) => (0, 0),
        Err(refusal) => (refusal.number, refusal.place),
    };
    *index += &format!("{name}\t{number}\t{place}\t{}\n", case.label);
    fs::write(folder.join(name), &case.bytes)
}
