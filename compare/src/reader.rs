//! The calls that both programs answer.

use second::Refusal;

/// The six calls as the C functions have them: an answer of 0 or more is done, one below 0 is minus the refusal number.
pub trait Reader {
    fn check(&self, file: &[u8], table: &mut [u32]) -> i64;

    fn objects(&self, file: &[u8], type_name: &[u8], table: &mut [u32]) -> i64;

    fn count_values(&self, file: &[u8], asked: Asked<'_>, table: &mut [u32]) -> i64;

    fn fill_values(&self, file: &[u8], asked: Asked<'_>, table: &mut [u32], out: &mut [i64])
        -> i64;

    fn listing(&self, file: &[u8], table: &mut [u32], text: &mut [u8]) -> i64;

    fn build(&self, text: &[u8], table: &mut [u32], file: &mut [u8]) -> i64;
}

/// Whose values are asked for, and with which kind.
#[derive(Clone, Copy)]
pub struct Asked<'a> {
    pub type_name: &'a [u8],
    pub field_name: &'a [u8],
    pub kind: u64,
}

/// The second program.
pub struct Second;

impl Reader for Second {
    fn check(&self, file: &[u8], table: &mut [u32]) -> i64 {
        number(second::check(file, table).map(|()| 0))
    }

    fn objects(&self, file: &[u8], type_name: &[u8], table: &mut [u32]) -> i64 {
        number(second::objects(file, type_name, table))
    }

    fn count_values(&self, file: &[u8], asked: Asked<'_>, table: &mut [u32]) -> i64 {
        let Asked {
            type_name,
            field_name,
            kind,
        } = asked;
        let answer = second::count_values(file, type_name, field_name, kind, table);
        number(answer)
    }

    fn fill_values(
        &self,
        file: &[u8],
        asked: Asked<'_>,
        table: &mut [u32],
        out: &mut [i64],
    ) -> i64 {
        let Asked {
            type_name,
            field_name,
            kind,
        } = asked;
        let answer = second::fill_values(file, type_name, field_name, kind, table, out);
        number(answer)
    }

    fn listing(&self, file: &[u8], table: &mut [u32], text: &mut [u8]) -> i64 {
        number(second::listing(file, table, text))
    }

    fn build(&self, text: &[u8], table: &mut [u32], file: &mut [u8]) -> i64 {
        number(second::build(text, table, file))
    }
}

fn number(answer: Result<usize, Refusal>) -> i64 {
    match answer {
        Ok(count) => count as i64,
        Err(refusal) => -i64::from(refusal.number),
    }
}
