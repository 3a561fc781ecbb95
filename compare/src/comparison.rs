//! Asking two readers the same, and comparing what they say and leave.

use std::fmt::{self, Display, Formatter};
use std::hint::black_box;

use second::bounds::TABLE;
use second::generate::random::Random;

use crate::lent::{Contents, Memory};
use crate::met::Met;
use crate::question::{Call, Question};
use crate::reader::{Reader, Second};

/// A reader that is held to the second program.
pub struct Comparison<'r, R> {
    reader: &'r R,
    pub random: Random,
    pub met: Met,
    contents: Contents,
    /// What the reader works in, and what the second program does.
    memories: [Memory; 2],
}

/// Two answers, or two memories afterwards, that should be equal and are not.
#[derive(Debug)]
pub struct Mismatch {
    /// What differs: the answer, a part of the memory, or what one call makes of another one's output.
    pub part: &'static str,
    text: String,
}

impl Mismatch {
    pub fn new(part: &'static str, text: String) -> Self {
        Mismatch { part, text }
    }
}

impl Display for Mismatch {
    fn fmt(&self, to: &mut Formatter<'_>) -> fmt::Result {
        write!(to, "the {} differs\n{}", self.part, self.text)
    }
}

/// Both programs agree on each call; here one call has to keep what the other has promised: the values that were counted
/// are written, and what cannot be counted cannot be written either.
fn same_number(question: &Question<'_>, counted: i64, filled: i64) -> Result<(), Mismatch> {
    if counted == filled {
        return Ok(());
    }
    let text = format!("answers {counted}, and fill_values with that room {filled}\n{question}");
    Err(Mismatch::new("number of values", text))
}

impl<'r, R: Reader> Comparison<'r, R> {
    pub fn new(reader: &'r R, seed: u64) -> Self {
        let mut random = Random::new(seed);
        Comparison {
            reader,
            contents: Contents::new(&mut random),
            random,
            met: Met::default(),
            memories: [Memory::empty(), Memory::empty()],
        }
    }

    /// Asks both, over equal memory; answers what they agree on.
    pub fn ask(&mut self, question: &Question<'_>) -> Result<i64, Mismatch> {
        let start = self.random.index(Contents::STARTS);
        let [memory, second] = &mut self.memories;
        memory.lend(question, &self.contents, start);
        second.lend(question, &self.contents, start);
        let answer = question.ask(self.reader, memory);
        // What the reader did to the guards happened behind the compiler's back.
        black_box(&mut *memory);
        let expected = question.ask(&Second, second);
        self.met.count(question.call, expected);
        let found = match answer == expected {
            true => memory.difference(second),
            false => Some(("answer", "not compared".to_string())),
        };
        let Some((part, where_first)) = found else {
            return Ok(answer);
        };
        let said = format!("answers {answer}, second {expected}\nmemory  {where_first}");
        let text = format!("{said}\n{question}");
        Err(Mismatch::new(part, text))
    }

    /// The first bytes that the last call of a listing or of a build has left, as many as it answered.
    pub fn written(&self, answer: i64) -> &[u8] {
        let length = usize::try_from(answer).unwrap_or(0);
        &self.memories[0].bytes.numbers()[..length]
    }

    /// Asks with a table that is long enough, and now and then also with one that is not.
    pub fn ask_call(&mut self, origin: &str, input: &[u8], call: &Call) -> Result<(), Mismatch> {
        let mut tables = vec![self.long_table()];
        if self.random.once_in(4) {
            tables.push(self.short_table());
        }
        self.ask_tables(origin, input, call, &tables)
    }

    /// Asks once for each of these lengths of the table. A count is followed by the fill that it is for.
    pub fn ask_tables(
        &mut self,
        origin: &str,
        input: &[u8],
        call: &Call,
        tables: &[usize],
    ) -> Result<(), Mismatch> {
        for &table in tables {
            let question = Question {
                origin,
                input,
                call,
                table,
            };
            let answer = self.ask(&question)?;
            if let Some(fill) = call.fill_for(answer) {
                let call = &fill;
                let filled = self.ask(&Question { call, ..question })?;
                same_number(&question, answer, filled)?;
            }
        }
        Ok(())
    }

    /// A length that is enough: the least, one more, or some more.
    pub fn long_table(&mut self) -> usize {
        let some = self.random.index(Contents::MORE);
        TABLE + *self.random.pick(&[0, 0, 1, some])
    }

    /// A length that is not enough.
    pub fn short_table(&mut self) -> usize {
        let some = self.random.index(TABLE);
        *self.random.pick(&[0, 1, TABLE - 1, some])
    }
}

#[cfg(test)]
mod tests {
    use super::*;

    #[test]
    fn another_number_than_was_counted_is_seen() {
        let call = Call::CountValues {
            type_name: b"a".to_vec(),
            field_name: b"b".to_vec(),
            kind: 11,
        };
        let question = Question {
            origin: "a test",
            input: &[0, 0],
            call: &call,
            table: TABLE,
        };
        let seen = |counted, filled| same_number(&question, counted, filled).err();
        assert!(seen(3, 3).is_none() && seen(-17, -17).is_none());
        for (counted, filled) in [(3, 2), (3, 4), (3, -19), (0, -19), (-17, 0), (-17, -16)] {
            let mismatch = seen(counted, filled).expect("the numbers differ");
            assert_eq!(mismatch.part, "number of values");
        }
    }
}
