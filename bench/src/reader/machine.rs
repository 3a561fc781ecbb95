//! When and on what kind of machine something was timed.

use std::env::consts::ARCH;
use std::fs;
use std::time::{SystemTime, UNIX_EPOCH};

/// Today's date, as `2001-02-03`, by the world's clock.
pub fn today() -> String {
    let now = SystemTime::now().duration_since(UNIX_EPOCH);
    let seconds = now.expect("it is later than 1970").as_secs();
    let (year, month, day) = date(seconds / 86_400);
    format!("{year:04}-{month:02}-{day:02}")
}

/// The date so many days after 1970-01-01. Years are taken from March on, so that the day of a leap year is the last of its
/// year and months have the lengths that 153 days in five of them give.
fn date(days: u64) -> (u64, u64, u64) {
    // Days since March of the year 0, and those of 400 years, 100 years, four years and a year.
    let days = days + 719_468;
    let (ages, of_age) = (days / 146_097, days % 146_097);
    let year_of_age = (of_age - of_age / 1_460 + of_age / 36_524 - of_age / 146_096) / 365;
    let of_year = of_age - (365 * year_of_age + year_of_age / 4 - year_of_age / 100);
    let month_from_march = (5 * of_year + 2) / 153;
    let day = of_year - (153 * month_from_march + 2) / 5 + 1;
    let month = match month_from_march {
        0..=9 => month_from_march + 3,
        _ => month_from_march - 9,
    };
    let year = 400 * ages + year_of_age + u64::from(month <= 2);
    (year, month, day)
}

/// The kind of processor, as `aarch64, Neoverse-V1`; only its architecture where nothing else is known.
pub fn kind() -> String {
    let info = fs::read_to_string("/proc/cpuinfo").unwrap_or_default();
    match model(&info) {
        Some(model) => format!("{ARCH}, {model}"),
        None => ARCH.to_string(),
    }
}

fn model(info: &str) -> Option<String> {
    let value = |key: &str| {
        let line = info.lines().find(|line| line.starts_with(key))?;
        Some(line.split_once(':')?.1.trim().to_string())
    };
    // Arm processors give the numbers of a maker and of a part in place of a name.
    value("model name").or_else(|| {
        let (maker, part) = (value("CPU implementer")?, value("CPU part")?);
        let known = PARTS
            .iter()
            .find(|known| known.0 == maker && known.1 == part);
        Some(
            known.map_or(format!("maker {maker}, part {part}"), |known| {
                known.2.to_string()
            }),
        )
    })
}

/// Makers, parts, and what they are called.
const PARTS: [(&str, &str, &str); 18] = [
    ("0x41", "0xd03", "Cortex-A53"),
    ("0x41", "0xd05", "Cortex-A55"),
    ("0x41", "0xd08", "Cortex-A72"),
    ("0x41", "0xd0b", "Cortex-A76"),
    ("0x41", "0xd0c", "Neoverse-N1"),
    ("0x41", "0xd40", "Neoverse-V1"),
    ("0x41", "0xd41", "Cortex-A78"),
    ("0x41", "0xd49", "Neoverse-N2"),
    ("0x41", "0xd4a", "Neoverse-E1"),
    ("0x41", "0xd4f", "Neoverse-V2"),
    ("0x41", "0xd83", "Neoverse-V3AE"),
    ("0x41", "0xd84", "Neoverse-V3"),
    ("0x41", "0xd8e", "Neoverse-N3"),
    ("0x61", "0x022", "Apple M1"),
    ("0x61", "0x023", "Apple M1"),
    ("0x61", "0x032", "Apple M2"),
    ("0x61", "0x033", "Apple M2"),
    ("0xc0", "0xac3", "Ampere-1"),
];
