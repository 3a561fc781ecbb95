//! Listings that cannot be built, each for one rule, beside those that just can.

use super::sheet::{lines, Sheet, Text};
use crate::bounds::{PAIRS, TABLE};

/// More than any of the files needs.
const ROOM: usize = 400;

pub fn ask(sheet: &mut Sheet) {
    values(sheet);
    words(sheet);
    kinds(sheet);
    annotations(sheet);
    maps(sheet);
    rows(
        sheet,
        "heads-built",
        "names, super types, starts and counts",
        HEADS,
    );
    rows(
        sheet,
        "fields-built",
        "numbers of fields, known and new ones, their names",
        FIELDS,
    );
    rows(
        sheet,
        "lines-built",
        "fewer lines, more lines, other lines",
        LINES,
    );
    rows(
        sheet,
        "reach-built",
        "types and objects as far as this pair",
        REACH,
    );
    whole(sheet);
    separators(sheet);
    left_out(sheet);
}

/// Each text as it is in short.
fn rows(sheet: &mut Sheet, name: &str, label: &str, texts: &[&str]) {
    for text in texts {
        sheet.build(ROOM, TABLE, &Text::plain(&lines(text)));
    }
    sheet.state(name, label);
}

/// A type of one object with one field of a kind, and what stands behind the
/// word `val`.
fn one(kind: &str, value: &str) -> Text {
    Text::plain(&format!(
        "pair\t1\t1\nstr\t61\ntype\t1\t0\t-\t1\t1\nnew\t{kind}\t1\nval{value}\n"
    ))
}

/// The ends of each kind's range and one beyond; forms of a value.
fn values(sheet: &mut Sheet) {
    for (kind, values) in [
        ("7", &["127", "-128", "128", "-129", "255"] as &[&str]),
        ("8", &["32767", "-32768", "32768", "-32769"]),
        (
            "9",
            &["2147483647", "-2147483648", "2147483648", "-2147483649"],
        ),
        (
            "10",
            &[
                "9223372036854775807",
                "-9223372036854775808",
                "9223372036854775808",
                "-9223372036854775809",
            ],
        ),
        (
            "11",
            &[
                "9223372036854775807",
                "-9223372036854775808",
                "9223372036854775808",
                "-9223372036854775809",
                "18446744073709551615",
                "18446744073709551616",
                "18446744073709551617",
                "-18446744073709551615",
            ],
        ),
        ("6", &["0", "1", "2", "00", "10", "-1", "", "t"]),
        (
            "12",
            &[
                "0123abcd",
                "0123abc",
                "0123abcd0",
                "0123abcD",
                "0123abcg",
                "/123abcd",
                ":123abcd",
                "`123abcd",
                "-1",
                "",
            ],
        ),
        (
            "13",
            &[
                "0123456789abcdef",
                "01234567",
                "0123456789abcde",
                "0123456789abcdef0",
                "0123456789abcdeF",
            ],
        ),
        ("14", &["0", "1", "2", "-1", "", "18446744073709551616"]),
        ("32", &["0", "1", "2", "-1"]),
    ] {
        for value in values {
            sheet.build(ROOM, TABLE, &one(kind, &format!("\t{value}")));
        }
    }
    sheet.state(
        "values-built",
        "the ends of each kind's range and one beyond",
    );
}

/// How a number may be written, and what may stand around it.
fn words(sheet: &mut Sheet) {
    for value in [
        "\t0", "\t00", "\t01", "\t-0", "\t-00", "\t-01", "\t--1", "\t+1", "\t-", "\t", "", "1",
        " 1", "\t 1", "\t1 ", "\t1\t", "\t1\t1", "\t1\r", "\t1:", "\t1/", "\t:", "\t/", "\t1.0",
        "\t0x1", "\t1,1", "\ta", "\t1a", "\t\t1",
    ] {
        sheet.build(ROOM, TABLE, &one("11", value));
    }
    sheet.state(
        "words-built",
        "a decimal has one form, and a line one tab before each field",
    );
    for string in [
        "", "6", "61", "616", "6g", "g6", "6G", "6A", "A6", "a/", "/a", "a:", "a`", " 61", "61 ",
        "61\t", "af09", "é",
    ] {
        let text = format!("pair\t1\t0\nstr\t{string}\n");
        sheet.build(ROOM, TABLE, &Text::plain(&text));
    }
    sheet.build(ROOM, TABLE, &Text::plain("pair\t1\t0\nstr\n"));
    sheet.state(
        "strings-built",
        "a string is pairs of lower-case hex digits",
    );
}

/// Kinds by their numbers, and how many elements a value has.
fn kinds(sheet: &mut Sheet) {
    for (kind, value) in [
        ("15,2,6", "\t0\t1"),
        ("15,2,6", "\t0"),
        ("15,2,6", "\t0\t1\t0"),
        ("15,2,6", "\t0\t2"),
        ("15,2,7", "\t127\t-128"),
        ("15,2,7", "\t127\t-129"),
        ("15,0,6", ""),
        ("15,0,6", "\t0"),
        ("17,6", ""),
        ("17,6", "\t"),
        ("17,6", "\t1\t0\t1"),
        ("17,6", "\t1\t2"),
        ("18,12", "\t00000000\t0000000"),
        ("19,14", "\t1\t0\t1"),
        ("19,14", "\t1\t2\t1"),
        ("19,32", "\t1\t0"),
        ("19,32", "\t2\t0"),
        ("17,33", ""),
        ("15,0,33", ""),
        ("33", "\t0"),
        ("5", "\t0"),
        ("16", "\t0"),
        ("16,6", "\t0"),
        ("20", "\t0"),
        ("20,6", "\t0"),
        ("21", "\t0"),
        ("21,6", "\t0"),
        ("31", "\t0"),
        ("17,5", ""),
        ("17,16", ""),
        ("17,4", ""),
        ("17,15", ""),
        ("17,31", ""),
        ("15,0,5", ""),
        ("15,0,16", ""),
        ("15,0,15", ""),
        ("15,1", "\t0"),
        ("15,1,6,6", "\t0"),
        ("17", ""),
        ("17,6,6", ""),
        ("17,06", ""),
        ("015,0,6", ""),
        ("11,", "\t0"),
        (",11", "\t0"),
        ("15,-1,6", ""),
        ("17,-6", ""),
        ("18446744073709551627", "\t0"),
        ("18446744073709551615", "\t0"),
    ] {
        sheet.build(ROOM, TABLE, &one(kind, value));
    }
    sheet.state(
        "kinds-built",
        "kinds by their numbers, and how many elements a value has",
    );
    for kind in [
        "0,127",
        "0,-128",
        "0,128",
        "0,-129",
        "0",
        "0,",
        "0,1,1",
        "0,-0",
        "0,01",
        "0,+1",
        "1,32767",
        "1,-32768",
        "1,32768",
        "1,-32769",
        "2,2147483647",
        "2,-2147483648",
        "2,2147483648",
        "2,-2147483649",
        "3,9223372036854775807",
        "3,-9223372036854775808",
        "3,9223372036854775808",
        "3,-9223372036854775809",
        "4,9223372036854775807",
        "4,-9223372036854775808",
        "4,9223372036854775808",
        "4,-9223372036854775809",
        "4,18446744073709551615",
        "5,1",
        "15,65535,7",
        "15,65536,7",
        "15,18446744073709551616,7",
        "17,32",
        "17,33",
        "32",
        "33",
        "15,65535,32",
        "15,1,33",
    ] {
        let text = format!("pair 1 1/str 61/type 1 0 - 0 1/new {kind} 1");
        sheet.build(ROOM, TABLE, &Text::plain(&lines(&text)));
    }
    sheet.state(
        "constants-built",
        "constants at the ends of their ranges, lengths at their bound",
    );
}

/// Annotations: two fields each.
fn annotations(sheet: &mut Sheet) {
    for value in [
        "\t0\t0",
        "\t1\t1",
        "",
        "\t0",
        "\t1",
        "\t1\t0",
        "\t0\t1",
        "\t1\t2",
        "\t2\t1",
        "\t2\t0",
        "\t1\t1\t",
        "\t1\t1\t1",
        "\t1\t1\t0\t0",
        "\t1\t01",
        "\t01\t1",
        "\t1\t-1",
        "\t-1\t1",
        "\t-0\t0",
        "\t-",
        "\t-\t-",
        "\t1,1",
        "\t1 1",
        "\t1\t\t1",
        "\t18446744073709551615\t1",
        "\t1\t18446744073709551615",
        "\t18446744073709551617\t1",
        "\t1\t18446744073709551617",
        "\t18446744073709551616\t18446744073709551616",
    ] {
        sheet.build(ROOM, TABLE, &one("5", value));
    }
    sheet.state(
        "annotations-built",
        "an annotation is two fields, both 0 or neither",
    );
    for (kind, value) in [
        ("17,5", "\t0\t0\t1\t1"),
        ("17,5", "\t0"),
        ("17,5", "\t1\t1\t0"),
        ("17,5", "\t1\t1\t0\t1"),
        ("17,5", "\t1\t1\t1\t2"),
        ("18,5", "\t1\t1\t1\t1"),
        ("18,5", "\t1\t1\t1"),
        ("19,5", "\t0\t0\t0\t0"),
        ("19,5", "\t0\t0\t0\t0\t0"),
        ("15,2,5", "\t1\t1\t0\t0"),
        ("15,2,5", "\t1\t1"),
        ("15,2,5", "\t1\t1\t0"),
        ("15,2,5", "\t1\t1\t0\t0\t0\t0"),
        ("15,1,5", "\t1\t1"),
        ("15,1,5", "\t1"),
        ("15,0,5", "\t0\t0"),
    ] {
        sheet.build(ROOM, TABLE, &one(kind, value));
    }
    sheet.state(
        "annotated-arrays-built",
        "as many pairs of fields as an array has annotations",
    );
}

/// Maps: a size before its keys, each with what it leads to.
fn maps(sheet: &mut Sheet) {
    for (kind, values) in [
        (
            "20,2,6,7",
            &[
                "0",
                "1 0 5",
                "2 1 -128 1 127",
                "",
                "1",
                "1 0",
                "0 0 5",
                "1 0 5 0",
                "1 0 5 1 6",
                "2 0 5",
                "2 0 5 1",
                "1 2 5",
                "1 0 128",
                "00",
                "-0",
                "-1",
                "01 0 5",
                "1,0 5",
                "65535",
                "65536",
                "65537 0 5",
                "4294967297 0 5",
                "18446744073709551615",
                "18446744073709551616",
                "18446744073709551617 0 5",
            ] as &[&str],
        ),
        (
            "20,3,6,7,14",
            &[
                "0",
                "1 0 0",
                "1 0 1 5 1",
                "2 1 0 1 2 5 0 5 1",
                "1",
                "1 0",
                "1 0 1",
                "1 0 1 5",
                "1 0 5 1",
                "1 0 0 5 1",
                "1 0 2 5 1",
                "1 0 1 5 2",
                "1 0 1 5 1 0",
                "2 0 1 5 1",
                "1 0 00",
                "1 0 65536",
                "1 0 18446744073709551615",
                "1 0 18446744073709551616",
                "1 0 18446744073709551617 5 1",
            ],
        ),
        (
            "20,8,7,7,7,7,7,7,7,7",
            &[
                "0",
                "1 1 1 2 1 3 1 4 1 5 1 6 1 7 8",
                "1 1 1 2 1 3 1 4 1 5 1 6 0",
                "1 1 1 2 1 3 1 4 1 5 1 6 1 7",
                "1 1 1 2 1 3 1 4 1 5 1 6",
                "1 1 1 2 1 3 1 4 1 5 1 6 0 7 8",
                "1 1 1 2 1 3 1 4 1 5 1 6 1 7 8 9",
                "1 1 2 3 4 5 6 7 8",
            ],
        ),
        (
            "20,3,5,32,14",
            &[
                "1 1 1 1 1 1",
                "1 0 0 1 0 0",
                "1 1 0 0",
                "1 0 1 0",
                "1 1 2 0",
                "1 2 1 0",
                "1 0 0 1 2 0",
                "1 0 0 1 0 2",
                "1 1 1",
                "1 1",
            ],
        ),
        (
            "20,2,12,13",
            &[
                "1 0123abcd 0123456789abcdef",
                "1 0123abc 0123456789abcdef",
                "1 0123abcd 0123456789abcdeF",
            ],
        ),
        (
            "20,2,11,5",
            &["1 -1 1 1", "1 -1 1", "1 -1 1 0", "1 -1 0 1", "1 -1 0 0 0"],
        ),
    ] {
        for value in values {
            let fields = value.split(' ').filter(|field| !field.is_empty());
            let fields: String = fields.map(|field| format!("\t{field}")).collect();
            sheet.build(ROOM, TABLE, &one(kind, &fields));
        }
    }
    sheet.state(
        "maps-built",
        "a size before its keys, each followed by what it leads to",
    );
    for kind in [
        "20,2,14,14",
        "20,2,5,32",
        "20,8,5,6,7,8,9,10,11,12",
        "20,8,6,6,6,6,6,6,6",
        "20,9,6,6,6,6,6,6,6,6,6",
        "20,2",
        "20,2,",
        "20,2,14",
        "20,2,14,",
        "20,2,14,14,",
        "20,2,14,14,14",
        "20,2,,14",
        "20,14,14",
        "20,0",
        "20,1,14",
        "20,1,14,14",
        "20,3,14,14",
        "20,02,14,14",
        "20,2,014,14",
        "20,-2,14,14",
        "20,2,4,14",
        "20,2,14,15",
        "20,2,16,14",
        "20,2,14,17",
        "20,2,20,14",
        "20,2,14,21",
        "20,2,31,14",
        "20,2,14,33",
        "20,2,33,14",
        "20,2,14,18446744073709551615",
        "20,2,14,18446744073709551630",
        "20,18446744073709551618,14,14",
        "17,20",
        "15,0,20",
    ] {
        sheet.build(ROOM, TABLE, &one(kind, "\t0"));
    }
    sheet.build(ROOM, TABLE, &one("20,2,14,14", ""));
    sheet.state(
        "map-kinds-built",
        "the number of types and as many element kinds, each with a value",
    );
    let head = "pair\t1\t1\nstr\t61\ntype\t1\t0\t-\t1\t1\nnew\t20,2,7,6\t1\nval\t130";
    let text = [(1, head), (130, "\t5\t0"), (1, "\n")];
    sheet.build(ROOM, TABLE, &Text::pieces(&text));
    sheet.state("map-of-130-built", "a size of more than a byte");
}

const HEADS: &[&str] = &[
    "pair 1 1/str 61/type 1 0 - 0 0",
    "pair 1 1/str 61/type 0 0 - 0 0",
    "pair 1 1/str 61/type 2 0 - 0 0",
    "pair 1 1/str 61/type - 0 - 0 0",
    "pair 1 1/str 61/type 1 - - 0 0",
    "pair 1 1/str 61/type 1 1 - 0 0",
    "pair 1 1/str 61/type 1 1 0 0 0",
    "pair 1 1/str 61/type 1 2 0 0 0",
    "pair 1 1/str 61/type 1 0 0 0 0",
    "pair 1 1/str 61/type 1 0 - - 0",
    "pair 1 1/str 61/type 1 0 - 0 -",
    "pair 1 1/str 61/type 1 0 - 0 0 0",
    "pair 1 1/str 61/type 1 0 - 0",
    "pair 1 1/str 61/type 1 0 - 65535 0",
    "pair 1 1/str 61/type 1 0 - 65536 0",
    "pair 1 1/str 61/type 1 0 - 18446744073709551616 0",
    "pair 2 2/str 61/str 62/type 1 0 - 65534 0/type 2 0 - 1 0",
    "pair 2 2/str 61/str 62/type 1 0 - 65535 0/type 2 0 - 1 0",
    "pair 1 1/str 61/type 1 0 - 65535 0/pair 0 1/type 1 - - 1 0",
    "pair 2 1/str 61/str 62/type 1 2 0 0 0",
    "pair 2 2/str 61/str 62/type 1 0 - 2 0/type 2 1 1 1 0",
    "pair 2 2/str 61/str 62/type 1 0 - 2 0/type 2 1 1 2 0",
    "pair 2 2/str 61/str 62/type 1 0 - 2 0/type 2 1 - 1 0",
    "pair 2 2/str 61/str 62/type 1 0 - 2 0/type 2 1 0 0 0",
    "pair 2 2/str 61/str 62/type 1 0 - 2 0/type 2 1 - 0 0",
    "pair 2 2/str 61/str 62/type 1 0 - 2 0/type 2 1 1 0 0",
    "pair 2 2/str 61/str 62/type 1 0 - 2 0/type 2 - 0 1 0",
    "pair 2 2/str 61/str 62/type 1 0 - 65535 0/type 2 1 65535 0 0",
    "pair 2 2/str 61/str 62/type 1 0 - 65535 0/type 2 1 65534 1 0",
    "pair 2 2/str 61/str 62/type 1 0 - 65535 0/type 2 1 65536 0 0",
    "pair 2 2/str 61/str 62/type 1 0 - 1 0/type 1 - - 1 0",
    "pair 2 2/str 61/str 61/type 1 0 - 1 0/type 2 - - 1 0",
    "pair 2 2/str 61/str 61/type 1 0 - 1 0/type 2 0 - 1 0",
    "pair 1 1/str 61/type 1 0 - 1 0/pair 1 1/str 61/type 2 - - 1 0",
    "pair 1 1/str 61/type 1 0 - 1 0/pair 1 1/str 61/type 2 0 - 1 0",
    "pair 1 1/str 61/type 1 0 - 1 0/pair 0 1/type 1 0 - 1 0",
    "pair 1 1/str 61/type 1 0 - 1 0/pair 0 1/type 1 - 0 1 0",
    "pair 1 1/str 61/type 1 0 - 1 0/pair 0 1/type 1 - - 1 0",
    "pair 2 2/str 61/str 62/type 1 0 - 1 0/type 2 1 0 1 0/pair 0 1/type 2 - 0 0 0",
    "pair 2 2/str 61/str 62/type 1 0 - 1 0/type 2 1 0 1 0/pair 0 1/type 2 - - 0 0",
    "pair 2 2/str 61/str 62/type 1 0 - 1 0/type 2 1 0 1 0/pair 0 1/type 2 - 0 1 0",
    "pair 2 2/str 61/str 62/type 1 0 - 1 0/type 2 1 0 1 0/pair 0 2/type 1 - - 1 0/type 2 1 0 1 0",
    "pair 3 3/str 61/str 62/str 63/type 1 0 - 3 0/type 2 1 0 2 0/type 3 1 2 1 0",
    "pair 3 3/str 61/str 62/str 63/type 1 0 - 3 0/type 2 1 0 2 0/type 3 1 1 1 0",
];

const FIELDS: &[&str] = &[
    "pair 1 1/str 61/type 1 0 - 0 1/new 7 1",
    "pair 1 1/str 61/type 1 0 - 0 1/new 7 0",
    "pair 1 1/str 61/type 1 0 - 0 1/new 7 2",
    "pair 1 1/str 61/type 1 0 - 0 1/new 7 -",
    "pair 1 1/str 61/type 1 0 - 0 0/new 7 1",
    "pair 1 1/str 61/type 1 0 - 0 2/new 7 1",
    "pair 1 1/str 61/type 1 0 - 0 1/old",
    "pair 1 1/str 61/type 1 0 - 0 129/new 7 1",
    "pair 2 1/str 61/str 62/type 1 0 - 0 2/new 7 1/new 7 2",
    "pair 2 1/str 61/str 62/type 1 0 - 0 2/new 7 1/new 8 1",
    "pair 2 1/str 61/str 61/type 1 0 - 0 2/new 7 1/new 8 2",
    "pair 2 2/str 61/str 62/type 1 0 - 0 1/new 7 1/type 2 0 - 0 1/new 7 1",
    "pair 2 2/str 61/str 62/type 1 0 - 0 1/new 7 1/type 2 1 0 0 1/new 7 1",
    "pair 2 1/str 61/str 62/type 1 0 - 0 1/new 7 1/pair 0 1/type 1 - - 0 1/new 7 1",
    "pair 2 1/str 61/str 62/type 1 0 - 0 1/new 7 1/pair 0 1/type 1 - - 0 1/new 7 2",
    "pair 2 1/str 61/str 62/type 1 0 - 0 1/new 7 1/pair 0 1/type 1 - - 0 1/old",
    "pair 2 1/str 61/str 62/type 1 0 - 0 1/new 7 1/pair 0 1/type 1 - - 1 1/old/val 5",
    "pair 2 1/str 61/str 62/type 1 0 - 0 1/new 7 1/pair 0 1/type 1 - - 1 0/old/val 5",
    "pair 2 1/str 61/str 62/type 1 0 - 0 1/new 7 1/pair 0 1/type 1 - - 1 0/val 5",
    "pair 2 1/str 61/str 62/type 1 0 - 0 1/new 7 1/pair 0 1/type 1 - - 1 0",
    "pair 2 1/str 61/str 62/type 1 0 - 0 1/new 7 1/pair 0 1/type 1 - - 1 1/new 7 2/val 5",
    "pair 2 1/str 61/str 62/type 1 0 - 0 1/new 7 1/pair 0 1/type 1 - - 1 2/old/new 7 2/val 5/val 6",
    "pair 2 1/str 61/str 62/type 1 0 - 0 1/new 7 1/pair 0 1/type 1 - - 1 2/new 7 2/old/val 5/val 6",
    "pair 2 1/str 61/str 62/type 1 0 - 0 1/new 7 1/pair 0 1/type 1 - - 1 2/old/new 7 1/val 5/val 6",
    "pair 2 1/str 61/str 62/type 1 0 - 0 1/new 7 1/pair 0 1/type 1 - - 1 2/old/old/val 5/val 6",
    "pair 2 1/str 61/str 62/type 1 0 - 0 1/new 7 1/pair 0 1/type 1 - - 1 1/old/new 7 2/val 5/val 6",
];

const LINES: &[&str] = &[
    "pair 1 1/str 61/type 1 0 - 2 1/new 7 1/val 5/val 6",
    "pair 1 1/str 61/type 1 0 - 2 1/new 7 1/val 5",
    "pair 1 1/str 61/type 1 0 - 2 1/new 7 1/val 5/val 6/val 7",
    "pair 1 1/str 61/type 1 0 - 2 1/new 7 1",
    "pair 0 1/str 61/type 1 0 - 2 1/new 7 1/val 5/val 6",
    "pair 2 1/str 61/type 1 0 - 2 1/new 7 1/val 5/val 6",
    "pair 1 1/str 61/str 61/type 1 0 - 2 1/new 7 1/val 5/val 6",
    "pair 1 0/str 61/type 1 0 - 2 1/new 7 1/val 5/val 6",
    "pair 1 2/str 61/type 1 0 - 2 1/new 7 1/val 5/val 6",
    "pair 1 65536/str 61/type 1 0 - 2 1/new 7 1/val 5/val 6",
    "pair 1 1/type 1 0 - 2 1/new 7 1/str 61/val 5/val 6",
    "pair 1 1/str 61/type 1 0 - 2 1/val 5/val 6/new 7 1",
    "pair 1 1/str 61/type 1 0 - 2 2/new 0,1 1/new 7 1/val 5/val 6",
    "pair 2 1/str 61/str 62/type 1 0 - 2 2/new 0,1 1/new 7 2/val 5/val 6",
    "pair 2 1/str 61/str 62/type 1 0 - 2 2/new 0,1 1/new 7 2/val/val/val 5/val 6",
    "pair 2 1/str 61/str 62/type 1 0 - 2 2/new 0,1 1/new 7 2/val 1/val 1/val 5/val 6",
    "pair 2 1/str 61/str 62/type 1 0 - 2 2/new 7 1/new 8 2/val 5/val 6/val 300/val 400",
    "pair 2 1/str 61/str 62/type 1 0 - 2 2/new 7 1/new 8 2/val 300/val 400/val 5/val 6",
    "pair 2 1/str 61/str 62/type 1 0 - 2 2/new 7 1/new 8 2/val 5/val 300/val 6/val 400",
    "pair 1 1/str 61/type 1 0 - 1 1/new 7 1/val 5/pair 0 1/type 1 - - 1 1/old/val 6",
    "pair 1 1/str 61/type 1 0 - 1 1/new 7 1/val 5/pair 0 1/type 1 - - 1 1/old/val 6/val 7",
    "pair 1 1/str 61/type 1 0 - 1 1/new 7 1/val 5/pair 0 1/type 1 - - 2 1/old/val 6",
    "pair 2 1/str 61/str 62/type 1 0 - 2 0/pair 0 1/type 1 - - 1 1/new 7 2/val 5/val 6/val 7",
    "pair 2 1/str 61/str 62/type 1 0 - 2 0/pair 0 1/type 1 - - 1 1/new 7 2/val 5",
    "pair 0 0//pair 0 0",
    "pair 0 0/pair 0 0",
    "val 1",
    "str 61",
];

const REACH: &[&str] = &[
    "pair 2 2/str 61/str 62/type 1 0 - 1 1/new 33 1/type 2 0 - 1 0/val 1",
    "pair 2 2/str 61/str 62/type 1 0 - 1 1/new 33 1/type 2 0 - 1 0/val 2",
    "pair 2 1/str 61/str 62/type 1 0 - 1 1/new 33 1/val 0/pair 0 1/type 2 0 - 1 0",
    "pair 2 1/str 61/str 62/type 1 0 - 1 1/new 17,33 1/val/pair 0 1/type 2 0 - 1 0",
    "pair 1 1/str 61/type 1 0 - 1 1/new 32 1/val 1/pair 0 1/type 1 - - 1 1/old/val 2",
    "pair 1 1/str 61/type 1 0 - 1 1/new 32 1/val 1/pair 0 1/type 1 - - 1 1/old/val 3",
    "pair 1 1/str 61/type 1 0 - 1 1/new 32 1/val 2/pair 0 1/type 1 - - 1 1/old/val 1",
    "pair 1 1/str 61/type 1 0 - 1 1/new 14 1/val 1/pair 1 1/str 62/type 1 - - 1 1/old/val 2",
    "pair 1 1/str 61/type 1 0 - 1 1/new 14 1/val 2/pair 1 1/str 62/type 1 - - 1 1/old/val 2",
    "pair 2 2/str 61/str 62/type 1 0 - 3 1/new 33 1/type 2 1 1 1 0/val 2/val 0/val 2",
    "pair 2 2/str 61/str 62/type 1 0 - 3 1/new 33 1/type 2 1 1 1 0/val 2/val 0/val 1",
    "pair 2 2/str 61/str 62/type 1 0 - 1 1/new 5 1/type 2 0 - 2 0/val 2 2",
    "pair 2 2/str 61/str 62/type 1 0 - 1 1/new 5 1/type 2 0 - 2 0/val 2 3",
    "pair 2 2/str 61/str 62/type 1 0 - 1 1/new 5 1/type 2 1 0 1 0/val 1 1",
    "pair 2 2/str 61/str 62/type 1 0 - 1 1/new 5 1/type 2 1 0 1 0/val 2 1",
    "pair 2 1/str 61/str 62/type 1 0 - 1 1/new 5 1/val 2 1/pair 0 1/type 2 0 - 1 0",
    "pair 2 1/str 61/str 62/type 2 0 - 1 0/pair 0 1/type 1 0 - 1 1/new 5 1/val 2 1",
    "pair 2 1/str 61/str 61/type 1 0 - 1 1/new 5 1/val 2 1",
    "pair 1 1/str 61/type 1 0 - 1 1/new 5 1/val 2 1/pair 1 0/str 61",
    "pair 1 1/str 61/type 1 0 - 1 1/new 5 1/val 0 0/pair 1 1/str 61/type 2 - - 1 1/old/val 2 2",
    "pair 1 1/str 61/type 1 0 - 1 1/new 5 1/val 1 2/pair 1 1/str 61/type 2 - - 1 1/old/val 2 2",
    "pair 1 1/str 61/type 1 0 - 200 0/pair 1 1/str 62/type 2 0 - 1 1/new 5 2/val 1 200",
    "pair 1 1/str 61/type 1 0 - 200 0/pair 1 1/str 62/type 2 0 - 1 1/new 5 2/val 1 201",
    "pair 2 2/str 61/str 62/type 1 0 - 1 1/new 20,2,33,5 1/type 2 0 - 1 0/val 1 1 2 1",
    "pair 2 1/str 61/str 62/type 1 0 - 1 1/new 20,2,33,5 1/val 0/pair 0 1/type 2 0 - 1 0",
    "pair 1 1/str 61/type 1 0 - 1 1/new 20,2,6,32 1/val 0/pair 0 1/type 1 - - 1 1/old/val 1 0 2",
    "pair 1 1/str 61/type 1 0 - 1 1/new 20,2,6,32 1/val 1 0 2/pair 0 1/type 1 - - 1 1/old/val 0",
    "pair 1 1/str 61/type 1 0 - 1 1/new 20,2,6,7 1/val 2 0 5/val 1 6",
    "pair 1 1/str 61/type 1 0 - 1 0/pair 1 1/str 62/type 2 1 0 0 0",
    "pair 1 0/str 61/pair 0 1/type 1 0 - 0 0",
    "pair 0 1/type 1 0 - 0 0/pair 1 0/str 61",
];

/// Texts that are wrong, or right, as a whole.
fn whole(sheet: &mut Sheet) {
    for text in [
        "",
        "\n",
        " ",
        "\t",
        "pair",
        "pair\t0\t0",
        "pair\t0\t0\n",
        "pair\t0\t0\n\n",
        "pair\t0\t0\n ",
        "pair\t0\t0\n\0",
        "pair\t0\t0\r\n",
        "pair\t0\t0\npair",
        " pair\t0\t0\n",
        "\npair\t0\t0\n",
        "Pair\t0\t0\n",
        "pair 0 0\n",
        "pair\t0\n",
        "pair\t\t0\n",
        "pair\t0\t\n",
        "pair\t-0\t0\n",
        "pair\t0\t00\n",
        "pair\t0\t65536\n",
        "pair\t1025\t0\n",
        "pair\t18446744073709551616\t0\n",
        "pair\t0\t18446744073709551616\n",
        "refused\t1\n",
    ] {
        sheet.build(ROOM, TABLE, &Text::plain(text));
    }
    sheet.state(
        "whole-built",
        "what stands before, behind and between lines",
    );
    for pairs in [PAIRS, PAIRS + 1] {
        sheet.build(ROOM, TABLE, &Text::pieces(&[(pairs, "pair\t0\t0\n")]));
    }
    let cut = [(PAIRS, "pair\t0\t0\n"), (1, "\n")];
    sheet.build(ROOM, TABLE, &Text::pieces(&cut));
    sheet.state("pairs-built", "32 pairs, and one more");
}

/// A listing with lines of every form.
const EVERY: &str =
    "pair 3 2/str 6162/str 63/str /type 1 0 - 1 3/new 15,2,8 1/new 4,-12 2/new 12 3\
    /type 2 1 0 1 1/new 17,11 1/val 1 -1/val 0a1b2c3d/val 10 20";

/// One with an annotation and a map.
const LINKED: &str = "pair 1 1/str 61/type 1 0 - 1 1/new 20,3,14,7,5 1/val 1 0 2 5 0 0 -5 1 1";

/// A blank for each tab, newline or comma in turn.
fn separators(sheet: &mut Sheet) {
    for text in [EVERY, LINKED].map(lines) {
        sheet.build(ROOM, TABLE, &Text::plain(&text));
        for (place, _) in text.match_indices(['\t', '\n', ',']) {
            let wrong = format!("{} {}", &text[..place], &text[place + 1..]);
            sheet.build(ROOM, TABLE, &Text::plain(&wrong));
        }
    }
    sheet.state(
        "separators-built",
        "a blank for each tab, newline and comma in turn",
    );
}

/// Each byte left out in turn.
fn left_out(sheet: &mut Sheet) {
    let text = lines("pair 1 1/str 6a/type 1 0 - 1 1/new 17,11 1/val 1 -1");
    let linked = lines("pair 1 1/str 6a/type 1 0 - 1 1/new 20,2,11,5 1/val 1 -1 1 1");
    // The front of both is the same.
    let kind = linked.find("20,").expect("a map's kind");
    for (text, first) in [(text, 0), (linked, kind)] {
        for place in first..text.len() {
            let wrong = format!("{}{}", &text[..place], &text[place + 1..]);
            sheet.build(ROOM, TABLE, &Text::plain(&wrong));
        }
    }
    sheet.state("left-out-built", "each byte of a listing left out in turn");
}
