//! What has to hold between the calls, over all generated cases.

mod common;

use std::collections::BTreeMap;

use common::{build, check, listing, objects, values_of};
use second::generate;
use second::reader;

/// The file of an accepted file's listing has that listing. It is the same
/// file, or a shorter one where that has padding; `plain_reader.rs` says which.
/// A listing comes back from its file.
#[test]
fn listing_and_build_undo_each_other() {
    let mut accepted = 0;
    let mut shorter = 0;
    for case in generate::files(generate::SEED, 2_000) {
        if let Ok(text) = listing(&case.bytes) {
            let file = build(&text).expect("a listing");
            assert_eq!(listing(&file), Ok(text), "{}", case.label);
            match file.len() < case.bytes.len() {
                true => shorter += 1,
                false => assert_eq!(file, case.bytes, "{}", case.label),
            }
            accepted += 1;
        }
    }
    assert!(shorter > 500, "only {shorter} files with padding");
    assert!(accepted > 1_000, "only {accepted} accepted files");
    accepted = 0;
    for case in generate::listings(generate::SEED, 1_000) {
        if let Ok(file) = build(&case.bytes) {
            accepted += 1;
            assert_eq!(check(&file), Ok(()), "{}", case.label);
            assert_eq!(listing(&file), Ok(case.bytes), "{}", case.label);
        }
    }
    assert!(accepted > 500, "only {accepted} accepted listings");
}

/// All columns of a file by type and field name, asked for by kind.
type Columns = BTreeMap<(Vec<u8>, Vec<u8>), (u64, Vec<i64>)>;

fn columns(file: &[u8]) -> Columns {
    let mut all = BTreeMap::new();
    let ledger = reader::read(file).expect("an accepted file");
    for owner in &ledger.types {
        let type_name = ledger.names.bytes(owner.name);
        for &field in &owner.fields {
            let name = ledger.names.bytes(ledger.fields[field].name);
            let kind = ledger.fields[field].kind.number().min(32);
            if let Ok(values) = values_of(file, type_name, name, kind) {
                assert_eq!(objects(file, type_name), Ok(values.len()));
                all.insert((type_name.to_vec(), name.to_vec()), (kind, values));
            }
        }
    }
    all
}

/// What is appended changes nothing before it: each accepted beginning of an
/// accepted file has columns that begin the whole file's.
#[test]
fn columns_grow_at_their_end() {
    let mut grown = 0;
    for case in generate::files(generate::SEED, 1_500) {
        let file = &case.bytes;
        if file.len() > 600 || check(file).is_err() {
            continue;
        }
        let whole = columns(file);
        for cut in 0..file.len() {
            if reader::read(&file[..cut]).is_ok() {
                for (names, (kind, values)) in columns(&file[..cut]) {
                    let (later_kind, later) = &whole[&names];
                    assert_eq!(*later_kind, kind, "{}", case.label);
                    assert!(later.starts_with(&values), "{}", case.label);
                    grown += usize::from(later.len() > values.len());
                }
            }
        }
    }
    assert!(grown > 500, "only {grown} columns grew");
}

/// The end of the file matters to refusal 1 alone: with more bytes behind, any
/// other refusal stays, and its place with it.
#[test]
fn more_bytes_change_no_refusal_but_one() {
    let mut stayed = 0;
    for case in generate::files(generate::SEED, 3_000) {
        if case.bytes.len() > 5_000 {
            continue;
        }
        let Err(refusal) = check(&case.bytes) else {
            continue;
        };
        assert!(refusal.place <= case.bytes.len() as u64, "{}", case.label);
        if refusal.number == 1 {
            continue;
        }
        stayed += 1;
        for more in [&[0u8][..], &[0x80], &[0xFF; 40]] {
            let longer = [&case.bytes, more].concat();
            assert_eq!(check(&longer), Err(refusal), "{}", case.label);
        }
    }
    assert!(stayed > 1_000, "only {stayed} refusals stayed");
}

/// A cut never brings a refusal that the file does not have, but for 1.
#[test]
fn cuts_bring_only_refusal_one() {
    for case in generate::files(generate::SEED, 600) {
        let file = &case.bytes;
        if file.len() > 300 {
            continue;
        }
        let whole = check(file);
        for cut in 0..file.len() {
            match reader::read(&file[..cut]).map(drop) {
                Err(refusal) if refusal.number != 1 => {
                    assert_eq!(Err(refusal), whole, "{}", case.label);
                }
                _ => {}
            }
        }
    }
}

/// A listing read the plain way, line by line and word by word, gives the same
/// columns: types by their string's hex, values in order of lines.
#[test]
fn columns_stand_in_the_listing() {
    let mut compared = 0;
    for case in generate::files(generate::SEED, 1_500) {
        if case.bytes.len() > 50_000 {
            continue;
        }
        let Ok(text) = listing(&case.bytes) else {
            continue;
        };
        let text = String::from_utf8(text).expect("a listing is plain text");
        let plain = plain_columns(&text);
        for ((type_name, name), (kind, values)) in columns(&case.bytes) {
            let key = (hex(&type_name), hex(&name));
            let read: Vec<i64> = match plain.kinds[&key].split_once(',') {
                Some((_, constant)) => {
                    let value: i64 = constant.parse().expect("a constant's decimal");
                    vec![value; plain.objects[&key.0]]
                }
                None => plain.values[&key]
                    .iter()
                    .map(|v| meaning(kind, v))
                    .collect(),
            };
            assert_eq!(read, values, "{}", case.label);
            assert_eq!(plain.objects[&key.0], values.len(), "{}", case.label);
            compared += 1;
        }
    }
    assert!(compared > 1_000, "only {compared} columns compared");
}

#[derive(Default)]
struct Plain {
    objects: BTreeMap<String, usize>,
    kinds: BTreeMap<(String, String), String>,
    values: BTreeMap<(String, String), Vec<String>>,
}

fn plain_columns(text: &str) -> Plain {
    let mut plain = Plain::default();
    let mut strings: Vec<String> = Vec::new();
    let mut order: BTreeMap<String, Vec<String>> = BTreeMap::new();
    let mut lines = text.lines().peekable();
    while lines.next().is_some() {
        while let Some(line) = lines.next_if(|line| line.starts_with("str\t")) {
            strings.push(line[4..].to_string());
        }
        // Which field each chunk of the pair is of, and how many lines it has.
        let mut chunks: Vec<(String, String, usize)> = Vec::new();
        while let Some(line) = lines.next_if(|line| line.starts_with("type\t")) {
            let words: Vec<&str> = line.split('\t').collect();
            let owner = strings[words[1].parse::<usize>().unwrap() - 1].clone();
            let count: usize = words[4].parse().unwrap();
            *plain.objects.entry(owner.clone()).or_default() += count;
            let fields = order.entry(owner.clone()).or_default();
            let mut old = fields.clone().into_iter();
            while let Some(line) =
                lines.next_if(|line| line.starts_with("old") || line.starts_with("new\t"))
            {
                let words: Vec<&str> = line.split('\t').collect();
                if words[0] == "old" {
                    chunks.push((owner.clone(), old.next().unwrap(), count));
                } else {
                    let name = strings[words[2].parse::<usize>().unwrap() - 1].clone();
                    fields.push(name.clone());
                    let key = (owner.clone(), name.clone());
                    plain.kinds.insert(key, words[1].to_string());
                    chunks.push((owner.clone(), name, plain.objects[&owner]));
                }
            }
        }
        for (owner, name, values) in chunks {
            let key = (owner, name);
            let constant = matches!(
                plain.kinds[&key].split(',').next(),
                Some("0" | "1" | "2" | "3" | "4")
            );
            let list = plain.values.entry(key).or_default();
            for _ in 0..if constant { 0 } else { values } {
                let line = lines.next().unwrap();
                list.push(
                    line.strip_prefix("val")
                        .unwrap()
                        .trim_start_matches('\t')
                        .to_string(),
                );
            }
        }
    }
    plain
}

/// The number a column has for a printed value.
fn meaning(kind: u64, printed: &str) -> i64 {
    match kind {
        12 | 13 => u64::from_str_radix(printed, 16).unwrap() as i64,
        _ => printed.parse().unwrap(),
    }
}

fn hex(bytes: &[u8]) -> String {
    bytes.iter().map(|byte| format!("{byte:02x}")).collect()
}
