//! The questions to the calls: what they meet.

use std::collections::BTreeSet;

use second::questions;

/// Every answer of a call is among them: the refusals that are the calls' own,
/// and each call's acceptance.
#[test]
fn questions_meet_every_answer() {
    let text = questions::text();
    for refusal in [1, 15, 16, 17, 18, 19, 20] {
        let answer = format!("≡ refused {refusal})");
        assert!(text.contains(&answer), "no question has {answer}");
    }
    assert!(!text.contains("refused 2)"), "2 is never given");
    for call in [
        "check",
        "objects",
        "count_values",
        "fill_values",
        "listing",
        "build",
    ] {
        let asked = text.lines().any(|line| {
            line.trim_start().starts_with(&format!("({call} ")) && line.contains("≡ done ")
        });
        assert!(asked, "no accepted {call}");
    }
}

/// The two questions about values have the same refusals, but that how many
/// there are is never refused for want of room.
#[test]
fn counting_meets_every_refusal_but_19() {
    let text = questions::text();
    let refusals = |call: &str| {
        let asked = text
            .lines()
            .filter(|line| line.contains(&format!("({call} ")));
        let refused = asked.filter_map(|line| line.split_once("≡ refused "));
        let numbers = refused.filter_map(|(_, rest)| rest.split(')').next());
        numbers.map(str::to_string).collect::<BTreeSet<_>>()
    };
    let counting = refusals("count_values");
    assert!(counting.iter().eq(["1", "15", "16", "17", "18"]));
    let mut filling = refusals("fill_values");
    assert!(filling.remove("19"));
    assert_eq!(filling, counting);
}

/// Each statement has a name of its own.
#[test]
fn questions_have_names() {
    let text = questions::text();
    let mut names: Vec<&str> = text
        .lines()
        .filter_map(|line| line.strip_suffix(" :"))
        .collect();
    let all = names.len();
    names.sort_unstable();
    names.dedup();
    assert_eq!(names.len(), all);
    assert!(all > 40);
}
