//! The second program's source with every fault in it, each behind a switch.

use std::cmp::Reverse;
use std::collections::BTreeMap;
use std::fs;
use std::io;
use std::ops::Range;
use std::path::Path;

use crate::faults::Fault;
use crate::Edit;

/// The switch: the number of the fault that is on, 0 for none.
const SWITCH: &str = "
pub mod planted {
    use std::sync::atomic::{AtomicUsize, Ordering};
    static ON: AtomicUsize = AtomicUsize::new(0);
    pub fn now() -> usize { ON.load(Ordering::Relaxed) }
    pub fn set(number: usize) { ON.store(number, Ordering::Relaxed) }
}
";

/// What the copy does without. The cases are made by the program itself: with
/// a fault the generator might make others.
const LEFT_OUT: [&str; 8] = [
    "big",
    "examples",
    "generate",
    "main",
    "programs",
    "questions",
    "tally",
    "vectors",
];

/// What is put in many places to be quick is compiled once, or the compiler
/// would meet all faults of it in each place.
const ONCE: &str = "#[inline(never)]";

/// Writes the source with its faults below `folder`. The faults are numbered
/// from 1 in their order.
pub fn write(folder: &Path, faults: &[Fault]) -> Result<(), String> {
    let source = Path::new(env!("CARGO_MANIFEST_DIR")).join("src");
    let mut files = BTreeMap::new();
    read(&source, &mut files).map_err(|error| format!("{}: {error}", source.display()))?;
    for (name, text) in &mut files {
        *text = planted(name, text, faults)?;
    }
    let unknown = |edit: &&Edit| !files.contains_key(edit.file);
    if let Some(edit) = faults.iter().flat_map(|fault| fault.edits).find(unknown) {
        return Err(format!("no file {}", edit.file));
    }
    let library = files.entry("lib.rs".to_string()).or_default();
    *library = without_left_out(library) + SWITCH;
    for (name, text) in files {
        put(&folder.join(name), &text).map_err(|error| error.to_string())?;
    }
    Ok(())
}

/// The files of a folder by their names, but for what is left out.
fn read(folder: &Path, files: &mut BTreeMap<String, String>) -> io::Result<()> {
    for entry in fs::read_dir(folder)? {
        let entry = entry?;
        let name = entry.file_name().to_string_lossy().into_owned();
        if !LEFT_OUT.contains(&name.trim_end_matches(".rs")) {
            let text = fs::read_to_string(entry.path())?;
            files.insert(name, text.replace("#[inline(always)]", ONCE));
        }
    }
    Ok(())
}

fn without_left_out(library: &str) -> String {
    let left_out = |line: &&str| {
        LEFT_OUT
            .iter()
            .any(|name| *line == format!("pub mod {name};"))
    };
    let lines = library.lines().filter(|line| !left_out(line));
    lines.map(|line| format!("{line}\n")).collect()
}

fn put(path: &Path, text: &str) -> io::Result<()> {
    if let Some(folder) = path.parent() {
        fs::create_dir_all(folder)?;
    }
    fs::write(path, text)
}

/// What stands in one place of a file with some fault on.
struct Change<'a> {
    place: Range<usize>,
    /// The numbers of faults and their texts.
    new: Vec<(usize, &'a str)>,
}

/// A file with all faults that are in it.
fn planted(name: &str, source: &str, faults: &[Fault]) -> Result<String, String> {
    let mut places: BTreeMap<(usize, Reverse<usize>), Vec<(usize, &str)>> = BTreeMap::new();
    for (number, fault) in (1..).zip(faults) {
        for edit in fault.edits.iter().filter(|edit| edit.file == name) {
            let place = place(source, edit)?;
            let key = (place.start, Reverse(place.end));
            places.entry(key).or_default().push((number, edit.new));
        }
    }
    let changes = places
        .into_iter()
        .map(|((start, Reverse(end)), new)| Change {
            place: start..end,
            new,
        });
    changed(source, 0..source.len(), &changes.collect::<Vec<_>>())
}

/// Where the changed piece of an edit stands.
fn place(source: &str, edit: &Edit) -> Result<Range<usize>, String> {
    let marked = edit.at.split_once('«').and_then(|(front, rest)| {
        let (old, back) = rest.split_once('»')?;
        Some((front, old, back))
    });
    let (front, old, back) = marked.ok_or_else(|| format!("no marks in {:?}", edit.at))?;
    let piece = [front, old, back].concat();
    let found: Vec<(usize, &str)> = source.match_indices(&piece).collect();
    match found[..] {
        [(at, _)] => Ok(at + front.len()..at + front.len() + old.len()),
        _ => Err(format!("{} has {} times: {piece}", edit.file, found.len())),
    }
}

/// A part of the source with the changes in it, which come by their starts,
/// one around others before them.
fn changed(source: &str, part: Range<usize>, changes: &[Change<'_>]) -> Result<String, String> {
    let mut text = String::new();
    let mut at = part.start;
    let mut rest = changes;
    while let Some((first, behind)) = rest.split_first() {
        let place = first.place.clone();
        let inner = behind
            .iter()
            .take_while(|next| next.place.start < place.end);
        let (inner, behind) = behind.split_at(inner.count());
        if inner.iter().any(|next| next.place.end > place.end) {
            return Err(format!("two changes overlap at {}", &source[place]));
        }
        text += &source[at..place.start];
        text += &switched(&changed(source, place.clone(), inner)?, &first.new);
        at = place.end;
        rest = behind;
    }
    Ok(text + &source[at..part.end])
}

/// Statements, which end in a semicolon or a brace, or an expression, with a
/// choice.
fn switched(old: &str, new: &[(usize, &str)]) -> String {
    let arms = new
        .iter()
        .map(|(number, text)| format!("{number} => {{ {text} }} "));
    let arms: String = arms.collect();
    let choice = format!("match crate::planted::now() {{ {arms}_ => {{ {old} }} }}");
    match old.ends_with([';', '}']) {
        true => choice,
        false => format!("({choice})"),
    }
}
