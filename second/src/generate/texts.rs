//! Listings: good ones, and ones that no accepted file has.

use super::random::Random;
use super::{annotations, good, maps, neighbours, rules, Case};
use crate::bounds;
use crate::draft;
use crate::listing;
use crate::v64;

/// The listing of file E.
pub const LISTING_E: &str = "pair\t1\t1\nstr\t64617465\ntype\t1\t0\t-\t2\t1\nnew\t11\t1\nval\t1\n\
    val\t-1\npair\t0\t1\ntype\t1\t-\t-\t1\t1\nold\nval\t256\n";

const GOOD: u8 = 0;
const BAD: u8 = 20;

/// The listing of a file, if it is accepted and not too long to be of use.
pub fn listing_of(file: &[u8]) -> Option<Vec<u8>> {
    listing::print(file, 8 << 20).ok()?
}

/// Listings with a known answer.
pub fn fixed() -> Vec<Case> {
    let mut cases = vec![
        Case::ruled("empty text", GOOD, Vec::new()),
        Case::ruled("listing of E", GOOD, LISTING_E.into()),
    ];
    cases.extend(changed());
    cases.extend(parted());
    cases.extend(values());
    cases.extend(map_values());
    cases.extend(map_kinds());
    cases.extend(constants());
    cases.extend(whole());
    cases.extend(extremes());
    cases.extend(of_rules());
    cases.extend(every_byte());
    cases
}

/// E's listing with the first (or, after `^`, the last) of one piece replaced.
fn changed() -> Vec<Case> {
    let mut cases = Vec::new();
    for &(from, to, answer) in CHANGES {
        let at = match from.strip_prefix('^') {
            Some(piece) => (LISTING_E.rfind(piece), piece),
            None => (LISTING_E.find(from), from),
        };
        let (Some(place), piece) = at else {
            panic!("{from:?} is not in the listing");
        };
        let (front, rest) = LISTING_E.split_at(place);
        let text = format!("{front}{to}{}", &rest[piece.len()..]);
        let label = format!("listing of E, {from:?} made {to:?}");
        cases.push(Case::ruled(&label, answer, text.into_bytes()));
    }
    cases
}

/// Every tab, comma and newline of two listings doubled, left out, or another
/// byte.
fn parted() -> Vec<Case> {
    [PARTED, PARTED_MAPS]
        .into_iter()
        .flat_map(parted_in)
        .collect()
}

const PARTED: &str =
    "pair\t2\t2\nstr\t61\nstr\t62\ntype\t1\t0\t-\t2\t2\nnew\t17,11\t1\nnew\t15,2,8\t2\n\
        type\t2\t1\t1\t1\t1\nnew\t0,-5\t1\nval\t-1\t-2\nval\nval\t3\t4\nval\t5\t6\n\
    pair\t0\t1\ntype\t1\t-\t-\t1\t2\nold\nold\nval\nval\t7\t8\n";

const PARTED_MAPS: &str = "pair\t3\t1\nstr\t61\nstr\t62\nstr\t63\ntype\t1\t0\t-\t2\t3\nnew\t5\t1\n\
    new\t18,5\t2\nnew\t20,3,14,11,5\t3\nval\t1\t2\nval\t0\t0\nval\nval\t1\t1\t1\t2\n\
    val\t2\t3\t1\t-5\t1\t2\t0\t0\nval\t0\npair\t0\t1\ntype\t1\t-\t-\t1\t3\nold\nold\nold\n\
    val\t1\t3\nval\t0\t0\nval\t1\t0\t2\t7\t0\t0\t7\t1\t1\n";

fn parted_in(text: &str) -> Vec<Case> {
    let mut cases = vec![Case::ruled("listing to be parted", GOOD, text.into())];
    for (place, byte) in text.bytes().enumerate() {
        let instead: &[&str] = match byte {
            b'\t' => &["\t\t", "", " ", "\n", ",", " \t", "\t "],
            b'\n' => &["\n\n", "", " ", "\r\n", "\r", "\t\n", " \n", "\0"],
            b',' => &[",,", "", " ", ", ", ".", "\t", "\n"],
            _ => &[],
        };
        for new in instead {
            let wrong = format!("{}{new}{}", &text[..place], &text[place + 1..]);
            let label = format!("{:?} at {place} made {new:?}", char::from(byte));
            cases.push(Case::ruled(&label, BAD, wrong.into_bytes()));
        }
    }
    cases
}

const CHANGES: &[(&str, &str, u8)] = &[
    ("val\t256", "val\t0256", BAD),
    ("val\t256", "val\t00", BAD),
    ("val\t256", "val\t-0", BAD),
    ("val\t256", "val\t+256", BAD),
    ("val\t256", "val\t-256", GOOD),
    ("val\t256", "val\t--256", BAD),
    ("val\t256", "val\t-", BAD),
    ("val\t256", "val\t", BAD),
    ("val\t256", "val", BAD),
    ("val\t256", "val\t256\t1", BAD),
    ("val\t256", "val\t256\t", BAD),
    ("val\t256", "val\t256 ", BAD),
    ("val\t256", "val\t 256", BAD),
    ("val\t256", "val 256", BAD),
    ("val\t256", "val\t\t256", BAD),
    ("val\t256", "val256", BAD),
    ("val\t256", "val\t256.0", BAD),
    ("val\t256", "val\t2_56", BAD),
    ("val\t256", "val\t0x100", BAD),
    ("val\t256", "Val\t256", BAD),
    ("val\t256", "val\t9223372036854775807", GOOD),
    ("val\t256", "val\t9223372036854775808", BAD),
    ("val\t256", "val\t-9223372036854775808", GOOD),
    ("val\t256", "val\t-9223372036854775809", BAD),
    ("val\t256", "val\t18446744073709551615", BAD),
    ("val\t256", "val\t18446744073709551616", BAD),
    ("val\t256", "val\t18446744073709551872", BAD),
    (
        "val\t256",
        "val\t100000000000000000000000000000000000000256",
        BAD,
    ),
    ("val\t256", "val\t0", GOOD),
    ("val\t256\n", "val\t256", BAD),
    ("val\t256\n", "val\t256\r\n", BAD),
    ("val\t256\n", "val\t256\n\n", BAD),
    ("val\t256\n", "val\t256\nval\t256\n", BAD),
    ("val\t256\n", "val\t256\npair\t0\t0\n", GOOD),
    ("val\t256\n", "val\t256\npair\t0\t0", BAD),
    ("val\t256\n", "val\t256\n\0", BAD),
    ("val\t256\n", "", BAD),
    ("old\n", "old\r\n", BAD),
    ("old\n", "old\t\n", BAD),
    ("old\n", "old \n", BAD),
    ("old\n", "", BAD),
    ("old\n", "old\nold\n", BAD),
    ("old\n", "new\t11\t1\n", BAD),
    ("old\n", "\nold\n", BAD),
    ("str\t64617465", "str\t6461746", BAD),
    ("str\t64617465", "str\t646174650", BAD),
    ("str\t64617465", "str\t6461746F", BAD),
    ("str\t64617465", "str\t6461746f", GOOD),
    ("str\t64617465", "str\t", GOOD),
    ("str\t64617465", "str", BAD),
    ("str\t64617465", "str\t\t64617465", BAD),
    ("str\t64617465", "str\t6461 7465", BAD),
    ("str\t64617465", "str\tdate", BAD),
    ("str\t64617465", "str\t00ff", GOOD),
    ("str\t64617465\n", "", BAD),
    ("str\t64617465\n", "str\t64617465\nstr\t64617465\n", BAD),
    ("pair\t1\t1", "pair\t01\t1", BAD),
    ("pair\t1\t1", "pair\t1\t01", BAD),
    ("pair\t1\t1", "pair\t2\t1", BAD),
    ("pair\t1\t1", "pair\t0\t1", BAD),
    ("pair\t1\t1", "pair\t1\t0", BAD),
    ("pair\t1\t1", "pair\t1\t2", BAD),
    ("pair\t1\t1", "pair\t1", BAD),
    ("pair\t1\t1", "pair\t1\t1\t1", BAD),
    ("pair\t1\t1", "pair\t1\t", BAD),
    ("pair\t1\t1", "pair\t\t1", BAD),
    ("pair\t1\t1", "pair\t-1\t1", BAD),
    ("pair\t1\t1", "pair\t1\t-", BAD),
    ("pair\t1\t1", "PAIR\t1\t1", BAD),
    ("pair\t1\t1", "\tpair\t1\t1", BAD),
    ("pair\t1\t1", " pair\t1\t1", BAD),
    ("pair\t1\t1", "pair\t99999999999\t1", BAD),
    ("pair\t1\t1", "pair\t1\t99999999999", BAD),
    ("pair\t1\t1", "pair\t1\t65536", BAD),
    ("pair\t1\t1", "pair\t18446744073709551617\t1", BAD),
    ("pair\t1\t1", "pair\t1\t18446744073709551617", BAD),
    ("type\t1\t0\t-\t2\t1", "type\t1\t0\t-\t1\t1", BAD),
    ("type\t1\t0\t-\t2\t1", "type\t1\t0\t-\t3\t1", BAD),
    ("type\t1\t0\t-\t2\t1", "type\t1\t0\t-\t2\t0", BAD),
    ("type\t1\t0\t-\t2\t1", "type\t1\t0\t-\t2\t2", BAD),
    ("type\t1\t0\t-\t2\t1", "type\t1\t-\t-\t2\t1", BAD),
    ("type\t1\t0\t-\t2\t1", "type\t1\t1\t-\t2\t1", BAD),
    ("type\t1\t0\t-\t2\t1", "type\t1\t1\t0\t2\t1", BAD),
    ("type\t1\t0\t-\t2\t1", "type\t1\t2\t0\t2\t1", BAD),
    ("type\t1\t0\t-\t2\t1", "type\t1\t0\t0\t2\t1", BAD),
    ("type\t1\t0\t-\t2\t1", "type\t0\t0\t-\t2\t1", BAD),
    ("type\t1\t0\t-\t2\t1", "type\t2\t0\t-\t2\t1", BAD),
    ("type\t1\t0\t-\t2\t1", "type\t-\t0\t-\t2\t1", BAD),
    ("type\t1\t0\t-\t2\t1", "type\t1\t0\t-\t-\t1", BAD),
    ("type\t1\t0\t-\t2\t1", "type\t1\t0\t-\t2\t-", BAD),
    ("type\t1\t0\t-\t2\t1", "type\t1\t0\t-\t2", BAD),
    ("type\t1\t0\t-\t2\t1", "type\t1\t0\t-\t2\t1\t", BAD),
    ("type\t1\t0\t-\t2\t1", "type\t1\t0\t-0\t2\t1", BAD),
    ("type\t1\t0\t-\t2\t1", "type\t1\t00\t-\t2\t1", BAD),
    ("type\t1\t0\t-\t2\t1", "type\t1\t0\t-\t02\t1", BAD),
    ("type\t1\t0\t-\t2\t1", "type\t1\t0\t-\t2\t01", BAD),
    ("type\t1\t0\t-\t2\t1", "type\t1\t0\t-\t99999999999\t1", BAD),
    ("type\t1\t0\t-\t2\t1", "type\t1\t0\t-\t65535\t1", BAD),
    ("type\t1\t0\t-\t2\t1", "type\t1\t0\t-\t65536\t1", BAD),
    ("type\t1\t0\t-\t2\t1", "type\t1\t0\t-\t2\t99999999999", BAD),
    (
        "type\t1\t0\t-\t2\t1",
        "type\t1\t0\t-\t2\t18446744073709551615",
        BAD,
    ),
    ("^type\t1\t-\t-\t1\t1", "type\t1\t0\t-\t1\t1", BAD),
    ("^type\t1\t-\t-\t1\t1", "type\t1\t-\t0\t1\t1", BAD),
    ("^type\t1\t-\t-\t1\t1", "type\t1\t-\t-\t0\t1", BAD),
    ("^type\t1\t-\t-\t1\t1", "type\t1\t-\t-\t1\t0", BAD),
    ("^type\t1\t-\t-\t1\t1", "type\t1\t-\t-\t1\t2", BAD),
    ("^type\t1\t-\t-\t1\t1", "type\t1\t-\t-\t2\t1", BAD),
    ("^type\t1\t-\t-\t1\t1", "type\t2\t-\t-\t1\t1", BAD),
    ("^pair\t0\t1", "pair\t0\t2", BAD),
    ("^pair\t0\t1", "pair\t1\t1", BAD),
    ("new\t11\t1", "new\t11\t0", BAD),
    ("new\t11\t1", "new\t11\t2", BAD),
    ("new\t11\t1", "new\t011\t1", BAD),
    ("new\t11\t1", "new\t11,\t1", BAD),
    ("new\t11\t1", "new\t11,11\t1", BAD),
    ("new\t11\t1", "new\t,11\t1", BAD),
    ("new\t11\t1", "new\t5\t1", BAD),
    ("new\t11\t1", "new\t16\t1", BAD),
    ("new\t11\t1", "new\t20\t1", BAD),
    ("new\t11\t1", "new\t21\t1", BAD),
    ("new\t11\t1", "new\t31\t1", BAD),
    ("new\t11\t1", "new\t32\t1", BAD),
    ("new\t11\t1", "new\t33\t1", BAD),
    ("new\t11\t1", "new\t18446744073709551615\t1", BAD),
    ("new\t11\t1", "new\t18446744073709551627\t1", BAD),
    ("new\t11\t1", "new\t-1\t1", BAD),
    ("new\t11\t1", "new\t4\t1", BAD),
    ("new\t11\t1", "new\t4,1\t1", BAD),
    ("new\t11\t1", "new\t10\t1", GOOD),
    ("new\t11\t1", "new\t9\t1", GOOD),
    ("new\t11\t1", "new\t8\t1", GOOD),
    ("new\t11\t1", "new\t7\t1", BAD),
    ("new\t11\t1", "new\t17,11\t1", GOOD),
    ("new\t11\t1", "new\t18,11\t1", GOOD),
    ("new\t11\t1", "new\t19,11\t1", GOOD),
    ("new\t11\t1", "new\t15,1,11\t1", GOOD),
    ("new\t11\t1", "new\t15,2,11\t1", BAD),
    ("new\t11\t1", "new\t15,0,11\t1", BAD),
    ("new\t11\t1", "new\t15,01,11\t1", BAD),
    ("new\t11\t1", "new\t15,1\t1", BAD),
    ("new\t11\t1", "new\t15,1, 11\t1", BAD),
    ("new\t11\t1", "new\t15,65536,11\t1", BAD),
    ("new\t11\t1", "new\t17\t1", BAD),
    ("new\t11\t1", "new\t16,11\t1", BAD),
    ("new\t11\t1", "new\t20,11\t1", BAD),
    ("new\t11\t1", "new\t21,11\t1", BAD),
    ("new\t11\t1", "new\t14,11\t1", BAD),
    ("new\t11\t1", "new\t17,17\t1", BAD),
    ("new\t11\t1", "new\t17,5\t1", BAD),
    ("new\t11\t1", "new\t17,16\t1", BAD),
    ("new\t11\t1", "new\t17,20\t1", BAD),
    ("new\t11\t1", "new\t17,11,11\t1", BAD),
    ("new\t11\t1", "old", BAD),
];

/// One object with one field of a kind, and its value lines.
fn one_object(kind: &str, lines: &str) -> Vec<u8> {
    format!("pair\t1\t1\nstr\t61\ntype\t1\t0\t-\t1\t1\nnew\t{kind}\t1\n{lines}").into_bytes()
}

/// Values at the ends of their kinds and past them.
fn values() -> Vec<Case> {
    let rows: &[(&str, &[&str], &[&str])] = &[
        (
            "6",
            &["\t0", "\t1"],
            &[
                "\t2", "\t-1", "\t00", "\tff", "\ttrue", "", "\t0\t1", "\t256",
            ],
        ),
        (
            "7",
            &["\t127", "\t-128", "\t0"],
            &["\t128", "\t-129", "\t255", "\t-0", "\t007"],
        ),
        (
            "8",
            &["\t32767", "\t-32768"],
            &["\t32768", "\t-32769", "\t65535"],
        ),
        (
            "9",
            &["\t2147483647", "\t-2147483648"],
            &["\t2147483648", "\t-2147483649"],
        ),
        (
            "10",
            &["\t9223372036854775807", "\t-9223372036854775808"],
            &[
                "\t9223372036854775808",
                "\t-9223372036854775809",
                "\t18446744073709551615",
            ],
        ),
        (
            "11",
            &["\t127", "\t128", "\t16384", "\t72057594037927936", "\t-1"],
            &["\t", "\t1\t", "\t1,1"],
        ),
        (
            "12",
            &["\t00000000", "\tffffffff", "\t7fc00001"],
            &[
                "\t7FC00001",
                "\t0",
                "\t0000000",
                "\t000000000",
                "\t0x000000",
                "\t-0000000",
                "",
            ],
        ),
        (
            "13",
            &["\t0000000000000000", "\tfff0000000000000"],
            &[
                "\t00000000",
                "\t000000000000000",
                "\t00000000000000000",
                "\tFFF0000000000000",
            ],
        ),
        (
            "14",
            &["\t0", "\t1"],
            &["\t2", "\t-1", "\t61", "\t18446744073709551616", "", "\t-"],
        ),
        (
            "32",
            &["\t0", "\t1"],
            &["\t2", "\t-1", "\t18446744073709551615", "\t-"],
        ),
        ("33", &[], &["\t0"]),
        (
            "5",
            &["\t0\t0", "\t1\t1"],
            &[
                "",
                "\t",
                "\t0",
                "\t1",
                "\t0\t1",
                "\t1\t0",
                "\t1\t2",
                "\t2\t1",
                "\t61\t1",
                "\t0\t0\t0",
                "\t1\t1\t",
                "\t1\t1\t1",
                "\t1\t1\t1\t1",
                "\t1\t1 ",
                "\t1 1",
                "\t1,1",
                "\t1\t\t1",
                "\t01\t1",
                "\t1\t01",
                "\t00\t0",
                "\t-0\t0",
                "\t0\t-0",
                "\t-1\t1",
                "\t1\t-1",
                "\t-",
                "\t-\t-",
                "\t18446744073709551615\t1",
                "\t18446744073709551616\t0",
                "\t18446744073709551617\t1",
                "\t1\t18446744073709551615",
                "\t0\t18446744073709551616",
                "\t1\t18446744073709551617",
            ],
        ),
        (
            "17,5",
            &["", "\t0\t0", "\t1\t1\t0\t0", "\t1\t1\t1\t1\t1\t1"],
            &[
                "\t",
                "\t0",
                "\t1\t1\t",
                "\t1\t1\t1",
                "\t0\t0\t0\t0\t0",
                "\t1\t1\t1\t0",
                "\t0\t0\t0\t1",
                "\t1\t1\t2\t1",
                "\t1\t1\t1\t2",
            ],
        ),
        ("18,5", &["", "\t0\t0\t1\t1"], &["\t0", "\t1\t1\t0"]),
        ("19,5", &["", "\t1\t1\t1\t1"], &["\t1", "\t1\t1\t1\t2"]),
        ("15,0,5", &[""], &["\t", "\t0", "\t0\t0"]),
        ("15,1,5", &["\t0\t0", "\t1\t1"], &["", "\t0", "\t0\t0\t0"]),
        (
            "15,2,5",
            &["\t1\t1\t0\t0", "\t0\t0\t1\t1"],
            &[
                "",
                "\t1\t1",
                "\t1\t1\t0",
                "\t1\t1\t0\t0\t0",
                "\t1\t1\t0\t0\t0\t0",
                "\t1\t0\t0\t1",
                "\t1\t1\t1\t2",
            ],
        ),
        (
            "17,6",
            &["", "\t0", "\t1\t0\t1"],
            &["\t", "\t2", "\t1\t", "\t\t1", "\t1 0"],
        ),
        ("18,7", &["", "\t-128\t127"], &["\t128"]),
        ("19,8", &["", "\t5\t5"], &["\t5\t32768"]),
        ("17,9", &["\t-2147483648"], &["\t2147483648"]),
        (
            "17,10",
            &["\t-9223372036854775808"],
            &["\t9223372036854775808"],
        ),
        ("18,11", &["\t-1\t0\t128"], &["\t-1\t-0\t128"]),
        (
            "17,12",
            &["", "\t00000000\tffffffff"],
            &["\t00000000ffffffff", "\t0"],
        ),
        ("18,13", &["\t0123456789abcdef"], &["\t0123456789abcdeF"]),
        ("19,14", &["\t0\t1\t1"], &["\t0\t1\t2"]),
        ("17,32", &["\t0\t1\t1"], &["\t0\t1\t2"]),
        ("15,0,6", &[""], &["\t", "\t0"]),
        ("15,2,6", &["\t0\t1"], &["", "\t0", "\t0\t1\t0", "\t0\t2"]),
        ("15,3,8", &["\t1\t-1\t0"], &["\t1\t-1", "\t1\t-1\t0\t0"]),
        ("15,1,32", &["\t1"], &["\t2"]),
        ("15,1,33", &[], &["\t0"]),
        ("15,65536,6", &[], &[""]),
        ("15,18446744073709551616,6", &[], &[""]),
        ("16", &[], &["\t0", ""]),
    ];
    let mut cases = Vec::new();
    for &(kind, right, wrong) in rows {
        for (list, answer) in [(right, GOOD), (wrong, BAD)] {
            for value in list {
                let text = one_object(kind, &format!("val{value}\n"));
                let label = format!("kind {kind}, value {value:?}");
                cases.push(Case::ruled(&label, answer, text));
            }
        }
    }
    cases
}

/// Maps: sizes before their keys, each key with what it leads to.
fn map_values() -> Vec<Case> {
    let rows: &[(&str, &[&str], &[&str])] = &[
        (
            "20,2,6,7",
            &["0", "1 0 5", "1 1 -128", "2 1 127 0 -1", "3 1 1 1 2 1 3"],
            &[
                "",
                "1",
                "1 0",
                "0 0 5",
                "1 0 5 0",
                "1 0 5 1 6",
                "2 0 5",
                "2 0 5 1",
                "3 0 5 1 6",
                "1 2 5",
                "1 0 128",
                "1 0 -0",
                "1 0 05",
                "00",
                "-0",
                "-1",
                "-",
                "01 0 5",
                "+1 0 5",
                "1,0 5",
                "1 0,5",
                "65535",
                "65535 0 5",
                "65536",
                "65537 0 5",
                "4294967297 0 5",
                "18446744073709551615",
                "18446744073709551615 0 5",
                "18446744073709551616",
                "18446744073709551617 0 5",
                "100000000000000000000000000000000000000001 0 5",
            ],
        ),
        (
            "20,3,6,7,14",
            &[
                "0",
                "1 0 0",
                "1 0 1 5 1",
                "2 1 0 1 2 5 0 5 1",
                "2 0 2 1 1 2 0 1 1 3 1",
            ],
            &[
                "",
                "1",
                "1 0",
                "1 0 1",
                "1 0 1 5",
                "1 0 5 1",
                "1 5 0 1",
                "1 0 0 5 1",
                "1 0 2 5 1",
                "1 0 1 5 2",
                "1 0 1 5 1 0",
                "1 0 1 5 1 0 0",
                "2 0 1 5 1",
                "2 0 1 5 1 1",
                "2 0 1 5 1 1 1",
                "1 0 00",
                "1 0 -1",
                "1 0 65535",
                "1 0 65536",
                "1 0 65537 5 1",
                "1 0 18446744073709551615",
                "1 0 18446744073709551616",
                "1 0 18446744073709551617 5 1",
            ],
        ),
        (
            "20,4,7,7,7,7",
            &[
                "0",
                "1 1 0",
                "1 1 1 2 0",
                "1 1 1 2 1 3 4",
                "2 1 0 2 2 3 0 4 2 5 6 7 8",
            ],
            &[
                "1 1",
                "1 1 1",
                "1 1 1 2",
                "1 1 1 2 1",
                "1 1 1 2 1 3",
                "1 1 1 2 1 3 4 5",
                "1 1 1 2 0 3 4",
            ],
        ),
        (
            "20,8,7,7,7,7,7,7,7,7",
            &[
                "0",
                "1 1 1 2 1 3 1 4 1 5 1 6 1 7 8",
                "1 1 1 2 1 3 1 4 1 5 1 6 0",
                "2 1 0 2 1 3 0",
            ],
            &[
                "1 1 1 2 1 3 1 4 1 5 1 6 1 7",
                "1 1 1 2 1 3 1 4 1 5 1 6 1",
                "1 1 1 2 1 3 1 4 1 5 1 6",
                "1 1 1 2 1 3 1 4 1 5 1 6 0 7 8",
                "1 1 1 2 1 3 1 4 1 5 1 6 1 7 8 9",
                "1 1 1 2 1 3 1 4 1 5 1 6 65536",
                "1 1 1 2 1 3 1 4 1 5 1 6 18446744073709551615",
                "1 1 2 3 4 5 6 7 8",
            ],
        ),
        (
            "20,2,5,6",
            &["0", "1 0 0 1", "1 1 1 0", "2 1 1 0 1 1 1"],
            &[
                "1 0 1",
                "1 1 0 1",
                "1 0 1 0",
                "1 1 2 0",
                "1 2 1 0",
                "1 0 0",
                "2 0 0 1",
                "1 1 1 0 0",
            ],
        ),
        (
            "20,2,14,5",
            &["0", "1 0 0 0", "2 1 1 1 0 0 0"],
            &[
                "1 0 0",
                "1 0 0 1",
                "1 1 1 0",
                "1 2 0 0",
                "1 0 0 0 0",
                "1 1 1 2",
            ],
        ),
        (
            "20,2,32,32",
            &["0", "1 1 0", "2 0 1 0 1"],
            &["1 2 0", "1 0 2", "1 -1 0", "1 1"],
        ),
        (
            "20,2,12,13",
            &["0", "1 0123abcd 0123456789abcdef"],
            &[
                "1 0123abc 0123456789abcdef",
                "1 0123abcd 0123456789abcdeF",
                "1 0123abcd",
            ],
        ),
        (
            "20,3,8,9,10",
            &[
                "1 -32768 1 -2147483648 -9223372036854775808",
                "1 32767 1 2147483647 9223372036854775807",
            ],
            &[
                "1 32768 0",
                "1 0 1 2147483648 0",
                "1 0 1 0 9223372036854775808",
                "1 -32769 0",
            ],
        ),
        (
            "20,2,11,11",
            &["2 -1 128 -9223372036854775808 9223372036854775807"],
            &["1 9223372036854775808 0", "1 0 18446744073709551615"],
        ),
    ];
    let mut cases = Vec::new();
    for &(kind, right, wrong) in rows {
        for (list, answer) in [(right, GOOD), (wrong, BAD)] {
            for value in list {
                let fields = value.split(' ').filter(|field| !field.is_empty());
                let fields: String = fields.map(|field| format!("\t{field}")).collect();
                let text = one_object(kind, &format!("val{fields}\n"));
                let label = format!("kind {kind}, map {value:?}");
                cases.push(Case::ruled(&label, answer, text));
            }
        }
    }
    cases
}

/// Kinds of maps by their numbers, each with an empty value.
fn map_kinds() -> Vec<Case> {
    let right = [
        "20,2,14,14",
        "20,2,5,5",
        "20,2,6,32",
        "20,2,32,6",
        "20,3,5,6,7",
        "20,4,8,9,10,11",
        "20,5,12,13,14,32,5",
        "20,6,6,6,6,6,6,6",
        "20,7,7,7,7,7,7,7,7",
        "20,8,5,6,7,8,9,10,11,12",
    ];
    let wrong = [
        "20",
        "20,",
        "20,2",
        "20,2,",
        "20,2,14",
        "20,2,14,",
        "20,2,14,14,",
        "20,2,14,14,14",
        "20,14,14",
        "20,2,,14,14",
        "20,2,14,,14",
        "20,,2,14,14",
        ",20,2,14,14",
        "20,0",
        "20,0,14",
        "20,1,14",
        "20,1,14,14",
        "20,3,14,14",
        "20,8,6,6,6,6,6,6,6",
        "20,8,6,6,6,6,6,6,6,6,6",
        "20,9,6,6,6,6,6,6,6,6,6",
        "20,10,6,6,6,6,6,6,6,6,6,6",
        "20,02,14,14",
        "020,2,14,14",
        "20,2,014,14",
        "20,2,14,014",
        "20,-2,14,14",
        "20,2,-14,14",
        "20,2,14,-14",
        "20,+2,14,14",
        "20, 2,14,14",
        "20,2,14, 14",
        "20,2,14,14 ",
        "20.2.14.14",
        "20,2,0,14",
        "20,2,4,14",
        "20,2,14,4",
        "20,2,15,14",
        "20,2,14,15",
        "20,2,16,14",
        "20,2,14,17",
        "20,2,18,14",
        "20,2,14,19",
        "20,2,20,14",
        "20,2,14,20",
        "20,2,21,14",
        "20,2,14,31",
        "20,2,33,14",
        "20,2,14,33",
        "20,2,14,255",
        "20,2,256,14",
        "20,2,14,4294967296",
        "20,2,14,18446744073709551615",
        "20,2,14,18446744073709551616",
        "20,2,18446744073709551630,14",
        "20,18446744073709551615,14,14",
        "20,18446744073709551618,14,14",
        "18446744073709551636,2,14,14",
        "15,0,20",
        "17,20",
        "18,20,2,14,14",
        "19,20",
        "20,2,17,14,14",
        "20,2,15,1,14,14",
        "21,2,14,14",
        "19,2,14,14",
    ];
    let mut cases = Vec::new();
    for (list, answer) in [(&right[..], GOOD), (&wrong[..], BAD)] {
        for kind in list {
            let text = one_object(kind, "val\t0\n");
            cases.push(Case::ruled(&format!("map kind {kind:?}"), answer, text));
        }
    }
    let bare = one_object("20,2,14,14", "val\n");
    cases.push(Case::ruled("an empty map has its size", BAD, bare));
    cases
}

fn constants() -> Vec<Case> {
    let rows = [
        ("0,-128", GOOD),
        ("0,127", GOOD),
        ("0,128", BAD),
        ("0,-129", BAD),
        ("0,-0", BAD),
        ("0,00", BAD),
        ("0", BAD),
        ("0,", BAD),
        ("0,1,1", BAD),
        ("1,-32768", GOOD),
        ("1,32768", BAD),
        ("2,2147483647", GOOD),
        ("2,2147483648", BAD),
        ("3,-9223372036854775808", GOOD),
        ("3,9223372036854775808", BAD),
        ("4,-1", GOOD),
        ("4,18446744073709551615", BAD),
        ("4,72057594037927936", GOOD),
    ];
    let mut cases: Vec<Case> = rows
        .iter()
        .map(|&(kind, answer)| {
            Case::ruled(&format!("constant {kind}"), answer, one_object(kind, ""))
        })
        .collect();
    let line = one_object("4,-1", "val\t-1\n");
    cases.push(Case::ruled("constant with a value line", BAD, line));
    cases
}

/// Texts that are wrong, or right, as a whole.
fn whole() -> Vec<Case> {
    let mut cases = Vec::new();
    let plain: &[(&str, &str, u8)] = &[
        ("one newline", "\n", BAD),
        ("one tab", "\t", BAD),
        ("one blank", " ", BAD),
        ("one pair", "pair\t0\t0\n", GOOD),
        ("a refusal line", "refused\t1\n", BAD),
        ("word alone", "pair", BAD),
        ("value first", "val\t1\n", BAD),
        ("string first", "str\t61\n", BAD),
        ("byte order mark", "\u{feff}pair\t0\t0\n", BAD),
        ("two types of equal names", "pair\t2\t2\nstr\t61\nstr\t61\ntype\t1\t0\t-\t0\t0\ntype\t2\t0\t-\t0\t0\n", BAD),
        ("second entry", "pair\t1\t2\nstr\t61\ntype\t1\t0\t-\t0\t0\ntype\t1\t-\t-\t0\t0\n", BAD),
        ("subtype", "pair\t2\t2\nstr\t61\nstr\t62\ntype\t1\t0\t-\t2\t0\ntype\t2\t1\t1\t1\t0\n", GOOD),
        ("subtype, range past the one above", "pair\t2\t2\nstr\t61\nstr\t62\ntype\t1\t0\t-\t2\t0\ntype\t2\t1\t1\t2\t0\n", BAD),
        ("subtype without start", "pair\t2\t2\nstr\t61\nstr\t62\ntype\t1\t0\t-\t2\t0\ntype\t2\t1\t-\t1\t0\n", BAD),
        ("subtype with start - and count 0", "pair\t2\t2\nstr\t61\nstr\t62\ntype\t1\t0\t-\t2\t0\ntype\t2\t1\t-\t0\t0\n", BAD),
        ("subtype with start 0 and count 0", "pair\t2\t2\nstr\t61\nstr\t62\ntype\t1\t0\t-\t2\t0\ntype\t2\t1\t0\t0\t0\n", GOOD),
        ("super name is no type", "pair\t2\t1\nstr\t61\nstr\t62\ntype\t1\t2\t0\t0\t0\n", BAD),
        ("super name too large", "pair\t1\t1\nstr\t61\ntype\t1\t2\t0\t0\t0\n", BAD),
        ("start past 65535", "pair\t2\t2\nstr\t61\nstr\t62\ntype\t1\t0\t-\t2\t0\ntype\t2\t1\t65536\t0\t0\n", BAD),
        ("start past 64 bits", "pair\t2\t2\nstr\t61\nstr\t62\ntype\t1\t0\t-\t2\t0\ntype\t2\t1\t18446744073709551616\t0\t0\n", BAD),
        ("field name used", "pair\t1\t1\nstr\t61\ntype\t1\t0\t-\t0\t2\nnew\t11\t1\nnew\t11\t1\n", BAD),
        ("count 0 with old", "pair\t1\t1\nstr\t61\ntype\t1\t0\t-\t0\t1\nnew\t11\t1\npair\t0\t1\ntype\t1\t-\t-\t0\t1\nold\n", BAD),
        ("count 0 without fields", "pair\t1\t1\nstr\t61\ntype\t1\t0\t-\t0\t1\nnew\t11\t1\npair\t0\t1\ntype\t1\t-\t-\t0\t0\n", GOOD),
        ("new before old", "pair\t2\t1\nstr\t61\nstr\t62\ntype\t1\t0\t-\t1\t1\nnew\t11\t1\nval\t1\npair\t0\t1\ntype\t1\t-\t-\t1\t2\nnew\t11\t2\nold\nval\t1\nval\t1\nval\t1\n", BAD),
        ("late field", "pair\t2\t1\nstr\t61\nstr\t62\ntype\t1\t0\t-\t1\t1\nnew\t11\t1\nval\t1\npair\t0\t1\ntype\t1\t-\t-\t1\t2\nold\nnew\t11\t2\nval\t1\nval\t1\nval\t1\n", GOOD),
        ("late field with this block's value only", "pair\t2\t1\nstr\t61\nstr\t62\ntype\t1\t0\t-\t1\t1\nnew\t11\t1\nval\t1\npair\t0\t1\ntype\t1\t-\t-\t1\t2\nold\nnew\t11\t2\nval\t1\nval\t1\n", BAD),
        ("old constant", "pair\t1\t1\nstr\t61\ntype\t1\t0\t-\t1\t1\nnew\t0,5\t1\npair\t0\t1\ntype\t1\t-\t-\t1\t1\nold\n", GOOD),
        ("old constant left out", "pair\t1\t1\nstr\t61\ntype\t1\t0\t-\t1\t1\nnew\t0,5\t1\npair\t0\t1\ntype\t1\t-\t-\t1\t0\n", BAD),
        ("reference to a later entry", "pair\t2\t2\nstr\t61\nstr\t62\ntype\t1\t0\t-\t1\t1\nnew\t33\t1\ntype\t2\t0\t-\t1\t0\nval\t1\n", GOOD),
        ("annotation to a later entry", "pair\t2\t2\nstr\t61\nstr\t62\ntype\t1\t0\t-\t1\t1\nnew\t5\t1\ntype\t2\t0\t-\t2\t0\nval\t2\t2\n", GOOD),
        ("annotation past a later entry", "pair\t2\t2\nstr\t61\nstr\t62\ntype\t1\t0\t-\t1\t1\nnew\t5\t1\ntype\t2\t0\t-\t2\t0\nval\t2\t3\n", BAD),
        ("annotation by a subtype's name", "pair\t2\t2\nstr\t61\nstr\t62\ntype\t1\t0\t-\t1\t1\nnew\t5\t1\ntype\t2\t1\t0\t1\t0\nval\t2\t1\n", BAD),
        ("annotation by an equal string", "pair\t2\t1\nstr\t61\nstr\t61\ntype\t1\t0\t-\t1\t1\nnew\t5\t1\nval\t2\t1\n", GOOD),
        ("annotation by an empty name", "pair\t2\t1\nstr\t\nstr\t61\ntype\t1\t0\t-\t1\t1\nnew\t5\t2\nval\t1\t1\n", GOOD),
        ("annotation to a type of the next pair", "pair\t2\t1\nstr\t61\nstr\t62\ntype\t1\t0\t-\t1\t1\nnew\t5\t1\nval\t2\t1\npair\t0\t1\ntype\t2\t0\t-\t1\t0\n", BAD),
        ("annotation to a type of the pair before", "pair\t2\t1\nstr\t61\nstr\t62\ntype\t2\t0\t-\t1\t0\npair\t0\t1\ntype\t1\t0\t-\t1\t1\nnew\t5\t1\nval\t2\t1\n", GOOD),
        ("annotation by a string of the next pair", "pair\t1\t1\nstr\t61\ntype\t1\t0\t-\t1\t1\nnew\t5\t1\nval\t2\t1\npair\t1\t0\nstr\t61\n", BAD),
        ("annotations of a known field", "pair\t1\t1\nstr\t61\ntype\t1\t0\t-\t1\t1\nnew\t5\t1\nval\t0\t0\npair\t0\t1\ntype\t1\t-\t-\t1\t1\nold\nval\t1\t2\n", GOOD),
        ("annotations of a known field, one line too many", "pair\t1\t1\nstr\t61\ntype\t1\t0\t-\t1\t1\nnew\t5\t1\nval\t0\t0\npair\t0\t1\ntype\t1\t-\t-\t1\t1\nold\nval\t1\t2\nval\t0\t0\n", BAD),
        ("maps of a known field", "pair\t1\t1\nstr\t61\ntype\t1\t0\t-\t1\t1\nnew\t20,2,32,5\t1\nval\t0\npair\t0\t1\ntype\t1\t-\t-\t1\t1\nold\nval\t1\t2\t1\t2\n", GOOD),
        ("maps of a known field, of the next pair's object", "pair\t1\t1\nstr\t61\ntype\t1\t0\t-\t1\t1\nnew\t20,2,32,5\t1\nval\t1\t2\t0\t0\npair\t0\t1\ntype\t1\t-\t-\t1\t1\nold\nval\t0\n", BAD),
        ("maps of a late field", "pair\t1\t1\nstr\t61\ntype\t1\t0\t-\t1\t0\npair\t0\t1\ntype\t1\t-\t-\t1\t1\nnew\t20,2,7,7\t1\nval\t1\t5\t6\nval\t0\n", GOOD),
        ("maps of a late field, one line missing", "pair\t1\t1\nstr\t61\ntype\t1\t0\t-\t1\t0\npair\t0\t1\ntype\t1\t-\t-\t1\t1\nnew\t20,2,7,7\t1\nval\t1\t5\t6\n", BAD),
        ("map of a later entry's type", "pair\t2\t2\nstr\t61\nstr\t62\ntype\t1\t0\t-\t1\t1\nnew\t20,2,33,6\t1\ntype\t2\t0\t-\t1\t0\nval\t1\t1\t0\n", GOOD),
        ("map of the next pair's type", "pair\t2\t1\nstr\t61\nstr\t62\ntype\t1\t0\t-\t1\t1\nnew\t20,2,33,6\t1\nval\t0\npair\t0\t1\ntype\t2\t0\t-\t1\t0\n", BAD),
        ("map over two lines", "pair\t1\t1\nstr\t61\ntype\t1\t0\t-\t1\t1\nnew\t20,2,7,7\t1\nval\t2\t5\t6\nval\t7\t8\n", BAD),
        ("values among the entries", "pair\t2\t2\nstr\t61\nstr\t62\ntype\t1\t0\t-\t1\t1\nnew\t11\t1\nval\t1\ntype\t2\t0\t-\t1\t0\n", BAD),
    ];
    for &(label, text, answer) in plain {
        cases.push(Case::ruled(label, answer, text.into()));
    }
    cases
}

/// Listings at the bounds and one beyond.
fn extremes() -> Vec<Case> {
    let empty_pairs = |count: usize| "pair\t0\t0\n".repeat(count).into_bytes();
    // The file has six bytes beside the string.
    let long_file = |length: usize| {
        let digits = "78".repeat(length - 6);
        format!("pair\t1\t0\nstr\t{digits}\n").into_bytes()
    };
    let strings = |count: usize| format!("pair\t{count}\t0\n{}", "str\t\n".repeat(count));
    let objects = |count: u64| format!("pair\t1\t1\nstr\t61\ntype\t1\t0\t-\t{count}\t0\n");
    let column = |count: usize, lines: usize| {
        let head = format!("pair\t1\t1\nstr\t61\ntype\t1\t0\t-\t{count}\t1\nnew\t11\t1\n");
        (head + &"val\t-1\n".repeat(lines)).into_bytes()
    };
    let types = |count: usize| {
        let strings: String = (0..count)
            .map(|name| format!("str\t{name:02x}\n"))
            .collect();
        let entries = (1..=count).map(|name| format!("type\t{name}\t0\t-\t1\t0\n"));
        format!(
            "pair\t{count}\t{count}\n{strings}{}",
            entries.collect::<String>()
        )
        .into_bytes()
    };
    let fields = |first: usize, second: usize| {
        let count = first.max(second);
        let strings: String = (0..count)
            .map(|name| format!("str\t{name:02x}\n"))
            .collect();
        let lines = |count| (1..=count).map(|name| format!("new\t0,5\t{name}\n"));
        let [first_lines, second_lines] = [first, second].map(|n| lines(n).collect::<String>());
        format!(
            "pair\t{count}\t2\n{strings}type\t1\t0\t-\t1\t{first}\n{first_lines}\
                type\t2\t0\t-\t1\t{second}\n{second_lines}"
        )
        .into_bytes()
    };
    let array =
        |kind: &str, length: usize| one_object(kind, &format!("val{}\n", "\t1".repeat(length)));
    let map = |kind: &str, size: &str, piece: &str, keys: usize| {
        one_object(kind, &format!("val\t{size}{}\n", piece.repeat(keys)))
    };
    let (two, three) = ("20,2,7,6", "20,3,7,7,6");
    vec![
        Case::ruled("32 pairs", GOOD, empty_pairs(32)),
        Case::ruled("33 pairs", BAD, empty_pairs(33)),
        Case::ruled("100000 pairs", BAD, empty_pairs(100_000)),
        Case::ruled("file of 1048576 bytes", GOOD, long_file(bounds::FILE)),
        Case::ruled("file of 1048577 bytes", BAD, long_file(bounds::FILE + 1)),
        Case::ruled("1024 strings", GOOD, strings(1024).into()),
        Case::ruled("1025 strings", BAD, strings(1025).into()),
        Case::ruled("32 types in one block", GOOD, types(32)),
        Case::ruled("33 types in one block", BAD, types(33)),
        Case::ruled("128 fields of one type", GOOD, fields(128, 0)),
        Case::ruled("129 fields of one type", BAD, fields(129, 0)),
        Case::ruled("128 fields of two types", GOOD, fields(64, 64)),
        Case::ruled("129 fields of two types", BAD, fields(64, 65)),
        Case::ruled("65535 objects", GOOD, objects(65_535).into()),
        Case::ruled("65536 objects", BAD, objects(65_536).into()),
        Case::ruled("65535 values", GOOD, column(65_535, 65_535)),
        Case::ruled("65535 values, one missing", BAD, column(65_535, 65_534)),
        Case::ruled("65535 values, one too many", BAD, column(65_535, 65_536)),
        Case::ruled("200000 values", BAD, column(200_000, 200_000)),
        Case::ruled("array of 65535", GOOD, array("17,7", 65_535)),
        Case::ruled("array of 65536", BAD, array("17,7", 65_536)),
        Case::ruled("map of 65535", GOOD, map(two, "65535", "\t1\t0", 65_535)),
        Case::ruled(
            "map of 65535, one missing",
            BAD,
            map(two, "65535", "\t1\t0", 65_534),
        ),
        Case::ruled(
            "map of 65535, one too many",
            BAD,
            map(two, "65535", "\t1\t0", 65_536),
        ),
        Case::ruled("map of 65536", BAD, map(two, "65536", "\t1\t0", 65_536)),
        Case::ruled(
            "map of 2^64 - 1",
            BAD,
            map(two, "18446744073709551615", "\t1\t0", 70_000),
        ),
        Case::ruled(
            "map of 65535 empty maps",
            GOOD,
            map(three, "65535", "\t1\t0", 65_535),
        ),
        Case::ruled(
            "map of 65536 empty maps",
            BAD,
            map(three, "65536", "\t1\t0", 65_536),
        ),
        Case::ruled(
            "inner map of 65535",
            GOOD,
            map(three, "1\t5\t65535", "\t1\t0", 65_535),
        ),
        Case::ruled(
            "inner map of 65536",
            BAD,
            map(three, "1\t5\t65536", "\t1\t0", 65_536),
        ),
        Case::ruled(
            "inner map of 2^64 - 1",
            BAD,
            map(three, "1\t5\t18446744073709551615", "\t1\t0", 70_000),
        ),
        Case::ruled("array of 65535 annotations", GOOD, array("17,5", 131_070)),
        Case::ruled("array of 65536 annotations", BAD, array("17,5", 131_072)),
        Case::ruled("fixed array of 65535", GOOD, array("15,65535,6", 65_535)),
        Case::ruled("fixed array of 65536", BAD, array("15,65536,6", 65_536)),
        Case::ruled(
            "number of 100000 digits",
            BAD,
            one_object("11", &format!("val\t{}\n", "9".repeat(100_000))),
        ),
        Case::ruled(
            "number of 100000 zeros",
            BAD,
            one_object("11", &format!("val\t{}\n", "0".repeat(100_000))),
        ),
        Case::ruled("300000 lines of nothing", BAD, vec![b'\n'; 300_000]),
    ]
}

/// The listings of the accepted files made for rules.
fn of_rules() -> Vec<Case> {
    let cases = [
        rules::cases(),
        annotations::cases(),
        maps::cases(),
        neighbours::cases(),
    ];
    let accepted = cases.into_iter().flatten().filter_map(|case| {
        let text = listing_of(&case.bytes)?;
        Some(Case::ruled(
            &format!("listing of: {}", case.label),
            GOOD,
            text,
        ))
    });
    accepted.collect()
}

/// Every byte value at some places of E's listing, and of a map.
fn every_byte() -> Vec<Case> {
    let last = LISTING_E.len() - 1;
    let places = [0, 4, 5, 9, 14, 22, 29, last - 1, last];
    let mut cases = every_byte_at("listing of E", LISTING_E, &places);
    let text = one_object("20,2,7,5", "val\t1\t5\t1\t1\n");
    let text = String::from_utf8(text).expect("a listing is ASCII");
    let at = |piece: &str, place: usize| text.find(piece).expect("a piece of it") + place;
    let (kind, value) = (at("20,2", 0), at("val", 0));
    let places = [
        kind + 1,
        kind + 2,
        kind + 3,
        kind + 5,
        value + 4,
        value + 5,
        value + 6,
        value + 8,
    ];
    cases.extend(every_byte_at("listing of a map", &text, &places));
    cases
}

fn every_byte_at(name: &str, text: &str, places: &[usize]) -> Vec<Case> {
    let mut cases = Vec::new();
    for &place in places {
        for byte in 0..=255 {
            let mut text = text.as_bytes().to_vec();
            text[place] = byte;
            let label = format!("{name}, byte {byte:02x} at {place}");
            cases.push(Case::chance(label, text));
        }
    }
    cases
}

/// Listings made by chance: of good ledgers, whole and damaged.
pub fn by_chance(random: &mut Random, count: usize) -> Vec<Case> {
    (0..count).map(|index| one(random, index)).collect()
}

fn one(random: &mut Random, index: usize) -> Case {
    let size = *random.pick(&[
        good::SMALL,
        good::SMALL,
        good::SMALL,
        good::WIDE,
        good::LONG,
    ]);
    let file = draft::write(&good::ledger(random, size, v64::write));
    let text = listing_of(&file).unwrap_or_default();
    let (label, text) = match index % 4 {
        0 => ("whole".to_string(), text),
        1 => of_bytes(random, text),
        2 => of_lines(random, text),
        _ => of_numbers(random, text),
    };
    Case::chance(format!("chance listing {index}, {label}"), text)
}

fn of_bytes(random: &mut Random, mut text: Vec<u8>) -> (String, Vec<u8>) {
    let label = super::damage::of_bytes(random, &mut text);
    (label, text)
}

fn of_lines(random: &mut Random, text: Vec<u8>) -> (String, Vec<u8>) {
    let mut lines: Vec<&[u8]> = text.split_inclusive(|&byte| byte == b'\n').collect();
    if lines.is_empty() {
        return ("no lines".to_string(), text);
    }
    let at = random.index(lines.len());
    let other = random.index(lines.len());
    let label = match random.below(4) {
        0 => {
            lines.swap(at, other);
            format!("lines {at} and {other} swapped")
        }
        1 => {
            lines.remove(at);
            format!("line {at} taken out")
        }
        2 => {
            lines.insert(at, lines[other]);
            format!("line {other} once more at {at}")
        }
        _ => {
            lines.truncate(at);
            format!("cut at line {at}")
        }
    };
    (label, lines.concat())
}

fn of_numbers(random: &mut Random, text: Vec<u8>) -> (String, Vec<u8>) {
    let starts: Vec<usize> = (1..text.len())
        .filter(|&at| text[at].is_ascii_digit() && !text[at - 1].is_ascii_digit())
        .collect();
    if starts.is_empty() {
        return ("no numbers".to_string(), text);
    }
    let start = *random.pick(&starts);
    let length = text[start..]
        .iter()
        .take_while(|c| c.is_ascii_digit())
        .count();
    let old = String::from_utf8_lossy(&text[start..start + length]).into_owned();
    let value: u64 = old.parse().unwrap_or(0);
    let new = match random.below(8) {
        0 => value.wrapping_add(1).to_string(),
        1 => value.wrapping_sub(1).to_string(),
        2 => format!("0{old}"),
        3 => format!("-{old}"),
        4 => random.bits().to_string(),
        5 => random.below(8).to_string(),
        6 => format!("{old}{}", random.below(10)),
        _ => "-".to_string(),
    };
    let label = format!("{old} at {start} made {new}");
    let changed = [&text[..start], new.as_bytes(), &text[start + length..]].concat();
    (label, changed)
}
