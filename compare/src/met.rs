//! What the calls were answered, to see that none of it is idle.

use std::collections::BTreeMap;

use crate::question::{Call, NAMES};

/// The highest refusal number.
const LAST: usize = 21;

/// How often each call was answered with what.
#[derive(Default)]
pub struct Met {
    /// By call: done, then each refusal by its number.
    answers: [[u64; LAST + 1]; NAMES.len()],
    /// By group: how many texts there were, and how many of them are the listing of a file.
    texts: BTreeMap<&'static str, [u64; 2]>,
}

impl Met {
    pub fn count(&mut self, call: &Call, answer: i64) {
        let refusal = (-answer).max(0) as usize;
        self.answers[call.index()][refusal] += 1;
    }

    /// A text of some group, by what its first call was answered.
    pub fn count_text(&mut self, group: &'static str, answer: i64) {
        let [all, built] = self.texts.entry(group).or_default();
        *all += 1;
        *built += u64::from(answer >= 0);
    }

    pub fn calls(&self) -> u64 {
        self.answers.iter().flatten().sum()
    }

    /// One line: the number of calls, and for each of them how often it was done and how often it got each refusal.
    pub fn line(&self) -> String {
        let mut line = format!("{} calls agree", self.calls());
        for (name, answers) in NAMES.iter().zip(&self.answers) {
            let counts = answers.iter().enumerate();
            let words: Vec<String> = counts
                .filter(|&(number, &count)| count > 0 || possible(name, number))
                .map(|(number, count)| format!("{} {count}", named(number)))
                .collect();
            line += &format!("; {name}: {}", words.join(", "));
        }
        line
    }

    /// Both lines: the calls, and the texts.
    pub fn lines(&self) -> String {
        format!("{}\n{}", self.line(), self.texts_line())
    }

    /// One line: how many texts of each group were built from, and how many of those are the listing of a file.
    pub fn texts_line(&self) -> String {
        let all: u64 = self.texts.values().map(|[all, _]| all).sum();
        let groups = self.texts.iter();
        let words: Vec<String> = groups
            .map(|(group, [all, built])| format!("{group} {all} ({built} built)"))
            .collect();
        format!("{all} texts: {}", words.join(", "))
    }

    /// The answers that a call can give and never gave.
    pub fn missing(&self) -> Vec<String> {
        self.such(|count, possible| count == 0 && possible)
    }

    /// The answers that a call cannot give and gave. Both programs did, or they would not agree.
    pub fn impossible(&self) -> Vec<String> {
        self.such(|count, possible| count > 0 && !possible)
    }

    /// The answers of which this holds, by how often they were given and whether they can be.
    fn such(&self, holds: fn(u64, bool) -> bool) -> Vec<String> {
        let mut such = Vec::new();
        for (name, answers) in NAMES.iter().zip(&self.answers) {
            for (number, &count) in answers.iter().enumerate() {
                if holds(count, possible(name, number)) {
                    such.push(format!("{name} {}", named(number)));
                }
            }
        }
        such
    }
}

/// An answer by its refusal number.
fn named(number: usize) -> String {
    match number {
        0 => "done".to_string(),
        refusal => format!("#{refusal}"),
    }
}

/// Whether a call can give this answer. No file gets 2 or 8. A count is lent no output, so it never gives 19. Whatever is
/// wrong with a text, or with the file it would be, is 20.
fn possible(name: &str, number: usize) -> bool {
    match number {
        0 | 15 => true,
        2 | 8 => false,
        16 => matches!(name, "objects" | "count_values" | "fill_values"),
        17 | 18 => matches!(name, "count_values" | "fill_values"),
        19 => matches!(name, "fill_values" | "listing" | "build"),
        20 => name == "build",
        _ => name != "build",
    }
}

#[cfg(test)]
mod tests {
    use super::*;

    #[test]
    fn an_impossible_answer_is_told() {
        let count = Call::CountValues {
            type_name: Vec::new(),
            field_name: Vec::new(),
            kind: 11,
        };
        let fill = count.fill_for(2).expect("a count is for a fill");
        let mut met = Met::default();
        for answer in [2, -17, -18] {
            met.count(&count, answer);
            met.count(&fill, answer);
        }
        met.count(&fill, -19);
        assert_eq!(met.impossible(), Vec::<String>::new());
        met.count(&count, -19);
        met.count(&Call::Check, -16);
        assert_eq!(met.impossible(), ["check #16", "count_values #19"]);
    }
}
