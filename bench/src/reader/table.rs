//! The table in words: a line for each size of a row, and the ratios of all rows side by side.

use crate::machine;
use crate::rows::{Row, Task, PARTS};
use crate::timing::Times;

/// A row and its times, in the order of [`PARTS`].
pub struct Measured {
    pub row: Row,
    pub sizes: [Times; 3],
}

/// When and where the times were taken.
pub fn origin() -> String {
    format!("{}, {}", machine::today(), machine::kind())
}

pub const HEAD: &str = "\
nanoseconds a call, median              part   file bytes        proved        second  proved/second          copy  copy/second  proved";

/// A row at one size.
pub fn line(row: &Row, task: &Task, times: Times) -> String {
    format!(
        "{:<40}{:<6}{:>11}{:>14}{:>14}{:>15}{:>14}{:>13}  {} {}",
        row.full_name(),
        part(task.part),
        grouped(task.file as f64),
        grouped(times.proved),
        grouped(times.second),
        ratio(times.ratio()),
        grouped(times.copy),
        ratio(times.limit()),
        cost(times.proved / task.units as f64),
        task.unit,
    )
}

/// What a part of a file's full size is called.
pub fn part(part: u64) -> String {
    match part {
        1 => "whole".to_string(),
        part => format!("1/{part}"),
    }
}

/// A whole number with its thousands parted by commas.
fn grouped(number: f64) -> String {
    let digits = format!("{number:.0}");
    let mut text = String::new();
    for (index, digit) in digits.chars().enumerate() {
        if index > 0 && (digits.len() - index) % 3 == 0 {
            text.push(',');
        }
        text.push(digit);
    }
    text
}

/// A cost, which may be that of a byte or of a whole entry.
fn cost(nanoseconds: f64) -> String {
    match nanoseconds {
        100.0.. => grouped(nanoseconds),
        _ => format!("{nanoseconds:.2}"),
    }
}

/// A ratio, with as many digits as say something.
pub fn ratio(ratio: f64) -> String {
    match ratio {
        100.0.. => format!("{ratio:.0}"),
        10.0.. => format!("{ratio:.1}"),
        0.1.. => format!("{ratio:.2}"),
        0.01.. => format!("{ratio:.3}"),
        _ => format!("{ratio:.4}"),
    }
}

/// The calls of files, and those of fields, as they stand side by side.
const OF_FILES: [&str; 3] = ["check", "listing", "build"];
const OF_FIELDS: [&str; 3] = ["count_values", "fill_values", "count and fill"];

/// Proved / second for all rows, files first and then fields, with their calls side by side. Behind them what it costs
/// to ask how many values there are before they are asked for.
pub fn ratios(all: &[Measured]) -> String {
    let is_of_file = |one: &&Measured| one.row.call.is_of_file();
    let (files, fields): (Vec<&Measured>, Vec<&Measured>) = all.iter().partition(is_of_file);
    let blocks = [
        side_by_side(&files, OF_FILES),
        side_by_side(&fields, OF_FIELDS),
        asked_first(&fields),
    ];
    let blocks = blocks.into_iter().filter(|lines| !lines.is_empty());
    let blocks: Vec<String> = blocks.map(|lines| lines.join("\n")).collect();
    blocks.join("\n\n")
}

/// A line for each file or field; a call that was not asked for has no figures.
fn side_by_side(rows: &[&Measured], calls: [&str; 3]) -> Vec<String> {
    let lines = names(rows).into_iter().map(|name| {
        let found = calls.map(|call| found(rows, call, name));
        let cells = found.map(|one| one.map_or(String::new(), cell));
        words(name, &cells)
    });
    headed(heads("proved / second", &calls), lines.collect())
}

/// A line for each field: the time of both calls, by that of `fill_values` alone, for either program.
fn asked_first(fields: &[&Measured]) -> Vec<String> {
    let lines = fields.iter().filter_map(|one| {
        let [small, middle, whole] = one.sizes.map(Times::by_fill_alone);
        let ratios = [small?, middle?, whole?];
        let cells = [0, 1].map(|program| sizes(ratios.map(|of| ratio(of[program]))));
        Some(words(one.row.name, &cells))
    });
    let heads = heads("count and fill / fill", &["proved", "second"]);
    headed(heads, lines.collect())
}

/// Heads before lines, if there are any.
fn headed(heads: [String; 2], lines: Vec<String>) -> Vec<String> {
    match lines.is_empty() {
        true => lines,
        false => heads.into_iter().chain(lines).collect(),
    }
}

/// The names of the rows, each once.
fn names<'a>(rows: &[&'a Measured]) -> Vec<&'a str> {
    let mut names = Vec::new();
    for one in rows {
        if !names.contains(&one.row.name) {
            names.push(one.row.name);
        }
    }
    names
}

/// The row of a call and a name, if it was asked for.
fn found<'a>(rows: &[&'a Measured], call: &str, name: &str) -> Option<&'a Measured> {
    let mut rows = rows.iter();
    let found = rows.find(|one| one.row.call.name() == call && one.row.name == name);
    found.copied()
}

/// Two lines: the calls or the programs, and the sizes below each of them.
fn heads(what: &str, names: &[&str]) -> [String; 2] {
    let names: Vec<String> = names.iter().map(|name| name.to_string()).collect();
    let sizes = vec![sizes(PARTS.map(part)); names.len()];
    [words(what, &names), words("", &sizes)]
}

/// A name, and cells of one width.
fn words(name: &str, cells: &[String]) -> String {
    let cells: String = cells.iter().map(|cell| format!("{cell:>22}")).collect();
    format!("{name:<26}{cells}").trim_end().to_string()
}

fn cell(measured: &Measured) -> String {
    sizes(measured.sizes.map(|times| ratio(times.ratio())))
}

fn sizes(words: [String; 3]) -> String {
    words.map(|word| format!("{word:>7}")).concat()
}
