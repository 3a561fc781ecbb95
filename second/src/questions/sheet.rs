//! Questions and their answers, written as the checker's statements.

use std::fmt::{Display, Write};

use crate::bounds::{FILE, TABLE};
use crate::Refusal;

const HEAD: &str = "\
-- Questions to the six calls, computed with the definitions: the answers are the second program's, and it writes this file.
-- Assumes nothing.
use Rattle.std.specs.Prelude.{◌≡◌, refl, List, [], ◌∷◌, ◌++◌, ℕ, zero, suc, ℤ, pos, negsuc, replicate}
use Rattle.paper.specs.Listing.{ascii}
use Rattle.paper.specs.Calls.{Answer, done, refused, check, objects, count_values, fill_values, listing, build, Left, after_check, after_objects, after_count, after_fill, after_listing, after_build}
use Rattle.paper.specs.Whole.{whole}

-- a piece n times
abbrev again : ℕ → List ℕ → List ℕ
again zero piece = []
again (suc n) piece = piece ++ again n piece
";

/// From how many equal ones on a run is written as one.
const RUN: usize = 12;

/// A file with the name that stands for it.
pub struct File {
    pub name: &'static str,
    pub bytes: Vec<u8>,
}

/// The type's name, the field's and the kind that are asked for.
pub type Asked<'a> = (&'a str, &'a str, u64);

/// Numbers a lent buffer holds: how often, and which.
pub type Lent<'a, T> = &'a [(usize, T)];

/// The statements so far, and what is asked since the last one.
pub struct Sheet {
    text: String,
    claims: Vec<String>,
}

impl Sheet {
    pub fn new() -> Self {
        Sheet {
            text: HEAD.to_string(),
            claims: Vec::new(),
        }
    }

    pub fn text(self) -> String {
        assert!(self.claims.is_empty(), "questions that no statement has");
        self.text
    }

    /// Names these bytes.
    pub fn file(&mut self, name: &'static str, label: &str, bytes: Vec<u8>) -> File {
        let list = numbers(&bytes);
        self.write(format!(
            "\n-- {label}\nabbrev {name} : List ℕ\n{name} =\n    {list}\n"
        ));
        File { name, bytes }
    }

    /// Names the file that has this listing, written as [`lines`] takes it.
    pub fn listed(&mut self, name: &'static str, label: &str, text: &str) -> File {
        self.file(name, label, built(&lines(text)))
    }

    /// Makes one statement of what was asked since the last one.
    pub fn state(&mut self, name: &str, label: &str) {
        let claims = std::mem::take(&mut self.claims);
        let proof = vec!["refl"; claims.len()].join(", ");
        let (open, close) = if claims.len() > 1 {
            ("(", ")")
        } else {
            ("", "")
        };
        let claims = claims.join(" ×\n    ");
        self.write(format!(
            "\n-- {label}\n{name} :\n    {claims}\nunfolding whole\n{name} = {open}{proof}{close}\n"
        ));
    }

    pub fn check(&mut self, table: usize, file: &File) {
        let answer = crate::check(&file.bytes, &mut vec![0; table]);
        let answer = told(answer.map(|()| 0));
        self.claim(format!("check {table} {}", file.name), answer);
    }

    pub fn objects(&mut self, name: &str, table: usize, file: &File) {
        let answer = crate::objects(&file.bytes, name.as_bytes(), &mut vec![0; table]);
        let question = format!("objects {} {table} {}", word(name), file.name);
        self.claim(question, told(answer));
    }

    /// How many values a field has: type, field and kind, the table's length.
    pub fn count_values(&mut self, of: Asked<'_>, table: usize, file: &File) {
        let (name, field, kind) = of;
        let answer = crate::count_values(
            &file.bytes,
            name.as_bytes(),
            field.as_bytes(),
            kind,
            &mut vec![0; table],
        );
        let (name, field) = (word(name), word(field));
        let question = format!("count_values {name} {field} {kind} {table} {}", file.name);
        self.claim(question, told(answer));
    }

    /// The same with just enough of a table.
    pub fn count(&mut self, of: Asked<'_>, file: &File) {
        self.count_values(of, TABLE, file);
    }

    /// A field's values: type, field and kind, the room and the table's length.
    pub fn fill_values(&mut self, of: Asked<'_>, room: usize, table: usize, file: &File) {
        let (name, field, kind) = of;
        let mut out = vec![0; room];
        let answer = crate::fill_values(
            &file.bytes,
            name.as_bytes(),
            field.as_bytes(),
            kind,
            &mut vec![0; table],
            &mut out,
        );
        let (name, field) = (word(name), word(field));
        self.claim(
            format!(
                "fill_values {name} {field} {kind} {room} {table} {}",
                file.name
            ),
            given(answer, |count| signed(&out[..count])),
        );
    }

    /// The same with just enough of a table.
    pub fn fill(&mut self, of: Asked<'_>, room: usize, file: &File) {
        self.fill_values(of, room, TABLE, file);
    }

    pub fn listing(&mut self, room: usize, table: usize, file: &File) {
        let mut out = vec![0; room];
        let answer = crate::listing(&file.bytes, &mut vec![0; table], &mut out);
        self.claim(
            format!("listing {room} {table} {}", file.name),
            given(answer, |length| text_of(&out[..length])),
        );
    }

    pub fn build(&mut self, room: usize, table: usize, text: &Text) {
        let mut out = vec![0; room];
        let answer = crate::build(&text.bytes(), &mut vec![0; table], &mut out);
        self.claim(
            format!("build {room} {table} {}", text.shown()),
            given(answer, |length| format!("({})", numbers(&out[..length]))),
        );
    }

    /// The whole listing of a file, and the file built back from it.
    pub fn shown(&mut self, file: &File) {
        let mut out = vec![0; 64 * file.bytes.len() + 64];
        let answer = crate::listing(&file.bytes, &mut vec![0; TABLE], &mut out);
        let length = answer.expect("an accepted file");
        let text = String::from_utf8(out[..length].to_vec()).expect("a listing is ASCII");
        self.listing(length, TABLE, file);
        self.build(file.bytes.len(), TABLE, &Text::plain(&text));
        let name = format!("{}-listed", file.name);
        self.state(&name, "its listing, and the file built back from it");
    }

    pub fn after_check(&mut self, file: &File, table: Lent<'_, u32>) {
        let mut work = lent(table);
        let answer = crate::check(&file.bytes, &mut work).map(|()| 0);
        let question = format!("after_check {} {}", file.name, runs(&lent(table)));
        self.left(question, answer, &work, "[]".to_string());
    }

    pub fn after_objects(&mut self, file: &File, name: &str, table: Lent<'_, u32>) {
        let mut work = lent(table);
        let answer = crate::objects(&file.bytes, name.as_bytes(), &mut work);
        let (name, before) = (word(name), runs(&lent(table)));
        let question = format!("after_objects {} {name} {before}", file.name);
        self.left(question, answer, &work, "[]".to_string());
    }

    pub fn after_count(&mut self, file: &File, of: Asked<'_>, table: Lent<'_, u32>) {
        let (name, field, kind) = of;
        let mut work = lent(table);
        let answer = crate::count_values(
            &file.bytes,
            name.as_bytes(),
            field.as_bytes(),
            kind,
            &mut work,
        );
        let question = format!(
            "after_count {} {} {} {kind} {}",
            file.name,
            word(name),
            word(field),
            runs(&lent(table)),
        );
        self.left(question, answer, &work, "[]".to_string());
    }

    pub fn after_fill(
        &mut self,
        file: &File,
        of: Asked<'_>,
        table: Lent<'_, u32>,
        room: Lent<'_, i64>,
    ) {
        let (name, field, kind) = of;
        let (mut work, mut out) = (lent(table), lent(room));
        let answer = crate::fill_values(
            &file.bytes,
            name.as_bytes(),
            field.as_bytes(),
            kind,
            &mut work,
            &mut out,
        );
        let question = format!(
            "after_fill {} {} {} {kind} {} {}",
            file.name,
            word(name),
            word(field),
            runs(&lent(table)),
            signed(&lent(room)),
        );
        self.left(question, answer, &work, signed(&out));
    }

    pub fn after_listing(&mut self, file: &File, table: Lent<'_, u32>, room: Lent<'_, u8>) {
        let (mut work, mut out) = (lent(table), lent(room));
        let answer = crate::listing(&file.bytes, &mut work, &mut out);
        let (before, lent) = (runs(&lent(table)), runs(&lent(room)));
        let question = format!("after_listing {} {before} {lent}", file.name);
        self.left(question, answer, &work, runs(&out));
    }

    pub fn after_build(&mut self, text: &Text, table: Lent<'_, u32>, room: Lent<'_, u8>) {
        let (mut work, mut out) = (lent(table), lent(room));
        let answer = crate::build(&text.bytes(), &mut work, &mut out);
        let (before, lent) = (runs(&lent(table)), runs(&lent(room)));
        let question = format!("after_build {} {before} {lent}", text.shown());
        self.left(question, answer, &work, runs(&out));
    }

    /// What a call answers, and leaves in its table and in its output.
    fn left(
        &mut self,
        question: String,
        answer: Result<usize, Refusal>,
        table: &[u32],
        output: String,
    ) {
        let left = format!(
            "record {{ answer = {}; table = {}; output = {output} }}",
            told(answer),
            runs(table),
        );
        self.claim(question, left);
    }

    fn claim(&mut self, question: String, answer: String) {
        self.claims.push(format!("({question} ≡ {answer})"));
    }

    fn write(&mut self, piece: String) {
        self.text.push_str(&piece);
    }
}

/// A text of pieces, each so many times.
pub struct Text(Vec<(usize, String)>);

impl Text {
    /// A text as it stands.
    pub fn plain(text: &str) -> Self {
        Text(vec![(1, text.to_string())])
    }

    /// Pieces, each so many times.
    pub fn pieces(pieces: &[(usize, &str)]) -> Self {
        let pieces = pieces.iter();
        Text(pieces.map(|&(n, text)| (n, text.to_string())).collect())
    }

    pub fn bytes(&self) -> Vec<u8> {
        let pieces = self.0.iter();
        pieces
            .flat_map(|(times, piece)| piece.repeat(*times).into_bytes())
            .collect()
    }

    fn shown(&self) -> String {
        let pieces = self.0.iter();
        let shown: Vec<String> = pieces
            .map(|(times, piece)| match times {
                1 => text_of(piece.as_bytes()),
                _ => format!("(again {times} {})", text_of(piece.as_bytes())),
            })
            .collect();
        match shown.as_slice() {
            [one] => one.clone(),
            several => format!("({})", several.join(" ++ ")),
        }
    }
}

/// A text in short: a blank for each tab, a stroke between lines.
pub fn lines(text: &str) -> String {
    if text.is_empty() {
        return String::new();
    }
    text.replace(' ', "\t").replace('/', "\n") + "\n"
}

/// The file with this listing.
///
/// # Panics
///
/// If no accepted file has it; all of them stand in this package.
pub fn built(text: &str) -> Vec<u8> {
    let mut out = vec![0; FILE];
    let answer = crate::build(text.as_bytes(), &mut vec![0; TABLE], &mut out);
    let length = answer.unwrap_or_else(|_| panic!("{text:?} is no listing"));
    out.truncate(length);
    out
}

fn lent<T: Copy>(held: Lent<'_, T>) -> Vec<T> {
    let held = held.iter();
    held.flat_map(|&(times, number)| vec![number; times])
        .collect()
}

fn told(answer: Result<usize, Refusal>) -> String {
    given(answer, |number| number.to_string())
}

fn given(answer: Result<usize, Refusal>, shown: impl FnOnce(usize) -> String) -> String {
    match answer {
        Ok(number) => format!("done {}", shown(number)),
        Err(refusal) => format!("refused {}", refusal.number),
    }
}

/// A name asked for.
fn word(name: &str) -> String {
    text_of(name.as_bytes())
}

/// Bytes as a text of the checker's where they are one, else as a list.
fn text_of(bytes: &[u8]) -> String {
    if bytes.is_empty() {
        return "[]".to_string();
    }
    let mut text = String::new();
    for &byte in bytes {
        match byte {
            b'\t' => text.push_str("\\t"),
            b'\n' => text.push_str("\\n"),
            b'\r' => text.push_str("\\r"),
            b'"' | b'\\' => return format!("({})", numbers(bytes)),
            b' '..=b'~' => text.push(byte as char),
            _ => return format!("({})", numbers(bytes)),
        }
    }
    format!("(ascii \"{text}\")")
}

/// Bytes as a list.
fn numbers(bytes: &[u8]) -> String {
    let mut text = String::new();
    for byte in bytes {
        write!(text, "0x{byte:02X} ∷ ").expect("a string takes all");
    }
    text + "[]"
}

/// Numbers as a list, a long run of equal ones as one.
fn runs<T: Copy + PartialEq + Display>(numbers: &[T]) -> String {
    let mut text = String::new();
    for run in numbers.chunk_by(|a, b| a == b) {
        if run.len() < RUN {
            text += &format!("{} ∷ ", run[0]).repeat(run.len());
        } else {
            text += &format!("replicate {} {} ++ ", run.len(), run[0]);
        }
    }
    format!("({text}[])")
}

/// Signed numbers as a list: `negsuc n` is -1 - n.
fn signed(values: &[i64]) -> String {
    let mut text = String::new();
    for &value in values {
        if value < 0 {
            write!(text, "negsuc {} ∷ ", -1 - value).expect("a string takes all");
        } else {
            write!(text, "pos {value} ∷ ").expect("a string takes all");
        }
    }
    format!("({text}[])")
}
