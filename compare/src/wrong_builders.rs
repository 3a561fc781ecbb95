//! Wrong builders. The comparison has to notice each of them, and by what it does wrong.

use second::bounds::{FILE, TABLE};
use second::generate::{LISTING_E, SEED};

use crate::builds;
use crate::comparison::{Comparison, Mismatch};
use crate::files;
use crate::large;
use crate::reader::{Asked, Reader, Second};
use crate::wrong::quick;

/// A builder that answers and writes what this says: from a text, over a table, to an output.
type Build = fn(&[u8], &mut [u32], &mut [u8]) -> i64;

/// A wrong builder, and the other calls as they should be.
struct Wrong(Build);

impl Reader for Wrong {
    fn check(&self, file: &[u8], table: &mut [u32]) -> i64 {
        Second.check(file, table)
    }

    fn objects(&self, file: &[u8], type_name: &[u8], table: &mut [u32]) -> i64 {
        Second.objects(file, type_name, table)
    }

    fn count_values(&self, file: &[u8], asked: Asked<'_>, table: &mut [u32]) -> i64 {
        Second.count_values(file, asked, table)
    }

    fn fill_values(
        &self,
        file: &[u8],
        asked: Asked<'_>,
        table: &mut [u32],
        out: &mut [i64],
    ) -> i64 {
        Second.fill_values(file, asked, table, out)
    }

    fn listing(&self, file: &[u8], table: &mut [u32], text: &mut [u8]) -> i64 {
        Second.listing(file, table, text)
    }

    fn build(&self, text: &[u8], table: &mut [u32], file: &mut [u8]) -> i64 {
        (self.0)(text, table, file)
    }
}

/// What of a comparison with this builder was noticed.
fn noticed(
    build: Build,
    ask: impl Fn(&mut Comparison<'_, Wrong>) -> Result<(), Mismatch>,
) -> Option<&'static str> {
    let wrong = Wrong(build);
    let mut comparison = Comparison::new(&wrong, SEED);
    ask(&mut comparison).err().map(|mismatch| mismatch.part)
}

/// It is noticed among the files that are accepted, by their listings.
fn caught_by_files(part: &str, build: Build) {
    let found = noticed(build, |comparison| {
        files::compare(comparison, "a test", &quick())
    });
    assert_eq!(found, Some(part));
}

/// It is noticed among damaged listings.
fn caught_by_damage(part: &str, build: Build) {
    let sheets = builds::sheets(200);
    let found = noticed(build, |comparison| builds::damaged(comparison, &sheets, 40));
    assert_eq!(found, Some(part));
}

/// It is noticed among large texts.
fn caught_by_large(part: &str, build: Build) {
    let found = noticed(build, |comparison| builds::large(comparison, large::TEXTS));
    assert_eq!(found, Some(part));
}

// Answers and order.

#[test]
fn refuses_everything() {
    caught_by_files("answer", |_, _, _| -20);
    caught_by_files("answer", |_, _, _| -15);
}

#[test]
fn invented_length() {
    caught_by_files("answer", |text, table, file| {
        match Second.build(text, table, file) {
            length @ 1.. => length + 1,
            other => other,
        }
    });
}

/// Room first: 19 before 20.
#[test]
fn room_before_the_text() {
    caught_by_damage("answer", |text, table, file| {
        match Second.build(text, table, file) {
            -20 if file.is_empty() => -19,
            other => other,
        }
    });
}

#[test]
fn room_before_the_table() {
    caught_by_damage("answer", |text, table, file| {
        match Second.build(text, table, file) {
            -15 if file.is_empty() => -19,
            other => other,
        }
    });
}

#[test]
fn text_before_the_table() {
    caught_by_damage("answer", |text, table, file| {
        let answer = Second.build(text, table, file);
        match Second.build(text, &mut vec![0; TABLE], &mut vec![0; FILE]) {
            -20 if answer == -15 => -20,
            _ => answer,
        }
    });
}

#[test]
fn a_table_one_too_short_taken() {
    caught_by_files("answer", |text, table, file| {
        match table.len() == TABLE - 1 {
            true => Second.build(text, &mut vec![0; TABLE], file),
            false => Second.build(text, table, file),
        }
    });
}

#[test]
fn exact_room_refused() {
    caught_by_files("answer", |text, table, file| {
        let lent = file.to_vec();
        let answer = Second.build(text, table, file);
        if answer == file.len() as i64 {
            file.copy_from_slice(&lent);
            return -19;
        }
        answer
    });
}

/// One byte too little is taken, and the last byte is not written.
#[test]
fn one_byte_too_little_taken() {
    caught_by_files("answer", |text, table, file| {
        let mut more = [&file[..], &[0]].concat();
        let answer = Second.build(text, table, &mut more);
        file.copy_from_slice(&more[..file.len()]);
        answer
    });
}

// Lent memory.

/// Writes before it judges: the front that can be read stays in the output.
#[test]
fn writes_before_it_judges() {
    caught_by_damage("bytes", |text, table, file| {
        let answer = Second.build(text, table, file);
        if answer == -20 {
            // The file of all pairs before the wrong one.
            let pairs = text.windows(5).enumerate();
            let starts = pairs
                .filter(|(_, word)| word == b"pair\t")
                .map(|(at, _)| at);
            for at in starts.collect::<Vec<_>>().into_iter().rev() {
                if Second.build(&text[..at], &mut vec![0; TABLE], file) > 0 {
                    break;
                }
            }
        }
        answer
    });
}

#[test]
fn writes_on_a_refusal() {
    let faults: [Build; 2] = [
        |t, w, f| touched_on(-15, t, w, f),
        |t, w, f| touched_on(-19, t, w, f),
    ];
    for fault in faults {
        caught_by_files("bytes", fault);
    }
    caught_by_damage("bytes", |t, w, f| touched_on(-20, t, w, f));
}

fn touched_on(refusal: i64, text: &[u8], table: &mut [u32], file: &mut [u8]) -> i64 {
    let answer = Second.build(text, table, file);
    if answer == refusal {
        if let Some(first) = file.first_mut() {
            *first ^= 1;
        }
    }
    answer
}

/// As much as there is room for is written, and then 19 is answered.
#[test]
fn writes_what_fits() {
    caught_by_files("bytes", |text, table, file| {
        let answer = Second.build(text, table, file);
        if answer == -19 {
            let mut whole = vec![0; FILE];
            Second.build(text, table, &mut whole);
            file.copy_from_slice(&whole[..file.len()]);
        }
        answer
    });
}

#[test]
fn writes_one_byte_too_many() {
    caught_by_files("bytes", |text, table, file| {
        let answer = Second.build(text, table, file);
        let behind = usize::try_from(answer).ok();
        if let Some(byte) = behind.and_then(|at| file.get_mut(at)) {
            *byte = byte.wrapping_add(1);
        }
        answer
    });
}

#[test]
fn writes_nothing() {
    caught_by_files("bytes", |text, table, file| {
        Second.build(text, table, &mut file.to_vec())
    });
}

#[test]
fn last_byte_wrong() {
    caught_by_files("bytes", |text, table, file| {
        let answer = Second.build(text, table, file);
        let last = usize::try_from(answer - 1).ok();
        if let Some(byte) = last.and_then(|at| file.get_mut(at)) {
            *byte ^= 0x80;
        }
        answer
    });
}

/// The table's last number is not cleared after an answer, after 19 or after 20.
#[test]
fn table_not_cleared() {
    let faults: [Build; 3] = [
        |t, w, f| marked_if(|answer| answer >= 0, t, w, f),
        |t, w, f| marked_if(|answer| answer == -19, t, w, f),
        |t, w, f| marked_if(|answer| answer == -20, t, w, f),
    ];
    for fault in faults {
        caught_by_damage("table", fault);
    }
}

fn marked_if(such: fn(i64) -> bool, text: &[u8], table: &mut [u32], file: &mut [u8]) -> i64 {
    let answer = Second.build(text, table, file);
    if such(answer) {
        table[TABLE - 1] = 7;
    }
    answer
}

#[test]
fn table_cleared_too_far() {
    caught_by_files("table", |text, table, file| {
        let answer = Second.build(text, table, file);
        if let Some(behind) = table.get_mut(TABLE) {
            *behind = 0;
        }
        answer
    });
}

#[test]
fn short_table_touched() {
    caught_by_files("table", |text, table, file| {
        let answer = Second.build(text, table, file);
        if answer == -15 {
            table.fill(0);
        }
        answer
    });
}

/// The length is right, and one byte in the middle is not.
#[test]
fn a_byte_wrong_in_the_middle() {
    caught_by_files("bytes", |text, table, file| {
        let answer = Second.build(text, table, file);
        if answer > 20 {
            file[answer as usize / 2] ^= 1;
        }
        answer
    });
}

/// The first number of the file has a byte of padding.
#[test]
fn pads_a_number() {
    caught_by_files("answer", |text, table, file| {
        let mut short = vec![0; file.len()];
        match Second.build(text, table, &mut short) {
            length @ 1.. if (length as usize) < file.len() && short[0] < 0x80 => {
                let length = length as usize;
                file[0] = short[0] | 0x80;
                file[1] = 0;
                file[2..=length].copy_from_slice(&short[1..length]);
                length as i64 + 1
            }
            _ => Second.build(text, table, file),
        }
    });
}

#[test]
fn always_the_same_file() {
    caught_by_files("answer", |_, table, file| {
        Second.build(LISTING_E.as_bytes(), table, file)
    });
}

/// The first pair is built, and the rest of the length is pretended.
#[test]
fn builds_the_first_pair_and_pretends_for_the_rest() {
    caught_by_files("bytes", |text, table, file| {
        let lent = file.to_vec();
        let answer = Second.build(text, table, file);
        let mut pairs = text.windows(6).skip(1);
        if let Some(at) = pairs.position(|word| word == b"\npair\t") {
            if answer > 0 {
                file.copy_from_slice(&lent);
                Second.build(&text[..at + 2], table, file);
            }
        }
        answer
    });
}

// Texts that it should not take. Each of these builders takes one thing more: where a text is no listing, it takes a text
// that is changed in its own way.

fn lenient(text: &[u8], table: &mut [u32], file: &mut [u8], change: fn(&str) -> String) -> i64 {
    let answer = Second.build(text, table, file);
    match (answer, std::str::from_utf8(text)) {
        (-20, Ok(text)) => Second.build(change(text).as_bytes(), table, file),
        _ => answer,
    }
}

/// A text with other lines. They come and go without their newlines.
fn by_lines(text: &str, change: impl Fn(&str) -> String) -> String {
    let lines = text.split_inclusive('\n').map(|line| {
        let bare = line.strip_suffix('\n').unwrap_or(line);
        change(bare) + &line[bare.len()..]
    });
    lines.collect()
}

/// A text with other words, those that begin a line aside.
fn by_words(text: &str, change: impl Fn(&str) -> String) -> String {
    by_lines(text, |line| {
        let mut words = line.split('\t');
        let first = words.next().unwrap_or("").to_string();
        words.fold(first, |line, word| line + "\t" + &change(word))
    })
}

fn without_zeros(word: &str) -> String {
    let (minus, digits) = match word.strip_prefix('-') {
        Some(digits) => ("-", digits),
        None => ("", word),
    };
    let rest = digits.trim_start_matches('0');
    match digits.parse::<u128>() {
        Ok(0) => minus.to_string() + "0",
        Ok(_) => minus.to_string() + rest,
        Err(_) => word.to_string(),
    }
}

#[test]
fn takes_leading_zeros() {
    caught_by_damage("answer", |text, table, file| {
        lenient(text, table, file, |text| by_words(text, without_zeros))
    });
}

#[test]
fn takes_minus_zero() {
    caught_by_damage("answer", |text, table, file| {
        lenient(text, table, file, |text| {
            by_words(text, |word| match word {
                "-0" => "0".to_string(),
                other => other.to_string(),
            })
        })
    });
}

#[test]
fn takes_a_plus() {
    caught_by_damage("answer", |text, table, file| {
        lenient(text, table, file, |text| text.replace('+', ""))
    });
}

/// The number of a word, if it is one, kept in `bits` bits.
fn kept_in(word: &str, bits: u32) -> String {
    let signed: Option<i128> = word.parse().ok();
    match signed {
        Some(number) => (number % (1i128 << bits)).to_string(),
        None => word.to_string(),
    }
}

#[test]
fn wraps_at_64_bits() {
    caught_by_damage("answer", |text, table, file| {
        lenient(text, table, file, |text| {
            by_words(text, |word| kept_in(word, 64))
        })
    });
}

#[test]
fn wraps_at_32_bits() {
    caught_by_damage("answer", |text, table, file| {
        lenient(text, table, file, |text| {
            by_words(text, |word| kept_in(word, 32))
        })
    });
}

/// Values are cut to their low byte, as i8.
#[test]
fn wraps_values() {
    caught_by_damage("answer", |text, table, file| {
        lenient(text, table, file, |text| {
            by_lines(text, |line| match line.starts_with("val") {
                true => by_words(line, |word| match word.parse::<i128>() {
                    Ok(number) => (number as i8).to_string(),
                    Err(_) => word.to_string(),
                }),
                false => line.to_string(),
            })
        })
    });
}

#[test]
fn takes_any_reference() {
    caught_by_damage("answer", |text, table, file| {
        lenient(text, table, file, |text| {
            by_lines(text, |line| match line.starts_with("val") {
                true => by_words(line, |word| match word.parse::<u64>() {
                    Ok(1..) => "0".to_string(),
                    _ => word.to_string(),
                }),
                false => line.to_string(),
            })
        })
    });
}

#[test]
fn takes_upper_case_hex() {
    caught_by_damage("answer", |text, table, file| {
        lenient(text, table, file, |text| {
            by_words(text, |word| word.to_ascii_lowercase())
        })
    });
}

#[test]
fn takes_upper_case_words() {
    caught_by_damage("answer", |text, table, file| {
        lenient(text, table, file, str::to_ascii_lowercase)
    });
}

#[test]
fn drops_an_odd_hex_digit() {
    caught_by_damage("answer", |text, table, file| {
        lenient(text, table, file, |text| {
            by_lines(text, |line| match line.starts_with("str\t") {
                true => line[..line.len() / 2 * 2].to_string(),
                false => line.to_string(),
            })
        })
    });
}

#[test]
fn takes_carriage_returns() {
    caught_by_damage("answer", |text, table, file| {
        lenient(text, table, file, |text| text.replace("\r\n", "\n"))
    });
}

#[test]
fn takes_no_newline_at_the_end() {
    caught_by_damage("answer", |text, table, file| {
        lenient(text, table, file, |text| text.to_string() + "\n")
    });
}

#[test]
fn takes_empty_lines() {
    caught_by_damage("answer", |text, table, file| {
        lenient(text, table, file, |text| {
            let lines = text.split_inclusive('\n');
            lines.filter(|line| *line != "\n").collect()
        })
    });
}

#[test]
fn takes_blanks() {
    let faults: [Build; 3] = [
        |t, w, f| lenient(t, w, f, |text| text.replace(' ', "\t")),
        |t, w, f| lenient(t, w, f, |text| text.replace(' ', "")),
        |t, w, f| {
            lenient(t, w, f, |text| {
                by_lines(text, |line| line.trim_end().to_string())
            })
        },
    ];
    for fault in faults {
        caught_by_damage("answer", fault);
    }
}

#[test]
fn takes_more_words_in_a_line() {
    caught_by_damage("answer", |text, table, file| {
        lenient(text, table, file, |text| {
            by_lines(text, |line| {
                let words: Vec<&str> = line.split('\t').collect();
                let due = match words[0] {
                    "pair" | "new" => 3,
                    "str" => 2,
                    "type" => 6,
                    "old" => 1,
                    _ => words.len(),
                };
                words[..due.min(words.len())].join("\t")
            })
        })
    });
}

/// The text is read as far as it is a listing.
#[test]
fn takes_what_stands_behind() {
    caught_by_damage("answer", |text, table, file| {
        let answer = Second.build(text, table, file);
        let mut front = text;
        while answer == -20 && !front.is_empty() {
            let end = front[..front.len() - 1]
                .iter()
                .rposition(|&byte| byte == b'\n');
            front = &front[..end.map_or(0, |end| end + 1)];
            let taken = Second.build(front, table, file);
            if taken > 0 {
                return taken;
            }
        }
        answer
    });
}

/// The number of strings is not held against the lines.
#[test]
fn counts_the_strings_itself() {
    caught_by_damage("answer", |text, table, file| {
        lenient(text, table, file, |text| {
            let mut pairs = text.split("pair\t");
            let first = pairs.next().unwrap_or("").to_string();
            pairs.fold(first, |text, pair| {
                let strings = pair.matches("str\t").count();
                let entries = pair.find('\t').unwrap_or(0);
                text + "pair\t" + &strings.to_string() + &pair[entries..]
            })
        })
    });
}

#[test]
fn counts_the_entries_itself() {
    caught_by_damage("answer", |text, table, file| {
        lenient(text, table, file, |text| {
            let mut pairs = text.split("pair\t");
            let first = pairs.next().unwrap_or("").to_string();
            pairs.fold(first, |text, pair| {
                let strings = pair.split('\t').next().unwrap_or("");
                let entries = pair.matches("type\t").count();
                let rest = pair.find('\n').unwrap_or(pair.len());
                text + "pair\t" + strings + "\t" + &entries.to_string() + &pair[rest..]
            })
        })
    });
}

#[test]
fn asks_for_no_old_lines() {
    caught_by_damage("answer", |text, table, file| {
        lenient(text, table, file, |text| {
            let lines = text.split_inclusive('\n').map(|line| {
                match line.starts_with("type\t") && line.contains("\t-\t-\t") {
                    true => line.to_string() + "old\n",
                    false => line.to_string(),
                }
            });
            lines.collect()
        })
    });
}

#[test]
fn takes_unknown_kinds() {
    let faults: [Build; 2] = [
        |t, w, f| {
            lenient(t, w, f, |text| {
                v64_for(text, |kind| matches!(kind, 16 | 20..=31))
            })
        },
        |t, w, f| lenient(t, w, f, |text| v64_for(text, |kind| kind >= 32)),
    ];
    for fault in faults {
        caught_by_damage("answer", fault);
    }
}

/// Fields of such kinds are made fields of v64 numbers.
fn v64_for(text: &str, such: fn(u64) -> bool) -> String {
    by_lines(text, |line| {
        let words: Vec<&str> = line.split('\t').collect();
        match words[..] {
            ["new", kind, name] if kind.parse().is_ok_and(such) => format!("new\t11\t{name}"),
            _ => line.to_string(),
        }
    })
}

/// Names are not compared, or only by their numbers: each string gets bytes of its own.
#[test]
fn takes_names_twice() {
    caught_by_damage("answer", |text, table, file| {
        lenient(text, table, file, |text| {
            let lines = text.split_inclusive('\n').enumerate();
            let lines = lines.map(|(number, line)| match line.strip_prefix("str\t") {
                Some(digits) => format!("str\t{number:06x}{digits}"),
                None => line.to_string(),
            });
            lines.collect()
        })
    });
}

#[test]
fn takes_33_pairs() {
    caught_by_damage("answer", |text, table, file| {
        let answer = Second.build(text, table, file);
        let Some(front) = text.strip_suffix(b"pair\t0\t0\n") else {
            return answer;
        };
        if answer != -20 || front.is_empty() {
            return answer;
        }
        let length = Second.build(front, table, file);
        match usize::try_from(length) {
            Ok(at) if at + 2 <= file.len() => {
                file[at..at + 2].fill(0);
                length + 2
            }
            Ok(_) => -19,
            Err(_) => -20,
        }
    });
}

#[test]
fn takes_31_pairs_only() {
    caught_by_damage("answer", |text, table, file| {
        let lent = file.to_vec();
        let answer = Second.build(text, table, file);
        let lines = text.split(|&byte| byte == b'\n');
        let pairs = lines.filter(|line| line.starts_with(b"pair")).count();
        if answer < 0 || pairs < 32 {
            return answer;
        }
        file.copy_from_slice(&lent);
        -20
    });
}

/// The bound of a file is one byte too low.
#[test]
fn bound_one_too_low() {
    caught_by_large("answer", |text, table, file| {
        let lent = file.to_vec();
        let answer = Second.build(text, table, file);
        if answer < FILE as i64 {
            return answer;
        }
        file.copy_from_slice(&lent);
        -20
    });
}

/// The bound of a file is one byte too high: what is too long is then a matter of room.
#[test]
fn bound_one_too_high() {
    caught_by_large("answer", |text, table, file| {
        let answer = Second.build(text, table, file);
        if answer != -20 {
            return answer;
        }
        let text = String::from_utf8_lossy(text).replacen("str\t78", "str\t", 1);
        match Second.build(text.as_bytes(), table, &mut vec![0; FILE]) {
            length if length == FILE as i64 => -19,
            _ => -20,
        }
    });
}

/// The bound is held against what one pair adds, not against the whole file.
#[test]
fn bound_of_a_pair() {
    caught_by_large("answer", |text, table, file| {
        let answer = Second.build(text, table, file);
        match text.strip_suffix(b"pair\t0\t0\n") {
            Some(front) if answer == -20 && !front.is_empty() => {
                Second.build(front, table, &mut file.to_vec()).min(-19)
            }
            _ => answer,
        }
    });
}
