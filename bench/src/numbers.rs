//! The proved v64 reader against a plain Rust loop: the same buffers, one run, the best of several repetitions.
//! Nanoseconds a number, over a megabyte of one-byte, of nine-byte and of mixed numbers, and of mixed ones padded to nine
//! bytes. `rt lib` in crates/pace first.
use std::hint::black_box;
use std::time::Instant;

const BYTES: usize = 1 << 20;
const REPETITIONS: usize = 60;

mod proved {
    #[link(name = "pace", kind = "static")]
    extern "C" {
        fn pace_sum_v64(bytes: *const u8, length: usize) -> u64;
    }

    pub fn sum(bytes: &[u8]) -> u64 {
        // SAFETY: a Rattle slice is passed as its first byte and its length, and the function only reads it.
        unsafe { pace_sum_v64(bytes.as_ptr(), bytes.len()) }
    }
}

/// A v64 at `at`, in any coding, and the place behind it.
fn plain_v64(bytes: &[u8], at: usize) -> Option<(u64, usize)> {
    let mut value = 0u64;
    for k in 0..9 {
        let byte = *bytes.get(at + k)?;
        if k == 8 || byte < 128 {
            return Some((value | u64::from(byte) << (7 * k), at + k + 1));
        }
        value |= u64::from(byte & 127) << (7 * k);
    }
    None
}

fn plain_sum(bytes: &[u8]) -> u64 {
    let mut sum = 0u64;
    let mut at = 0;
    while let Some((value, next)) = plain_v64(bytes, at) {
        sum = sum.wrapping_add(value);
        at = next;
    }
    sum
}

/// Appends a number in at least so many bytes, from 1 to 9, and in no more than it needs beyond that.
fn put_v64(out: &mut Vec<u8>, mut value: u64, least: usize) {
    for k in 1..9 {
        if value < 128 && k >= least {
            break;
        }
        out.push(128 | value as u8);
        value >>= 7;
    }
    out.push(value as u8);
}

/// Numbers that do not follow a pattern which a branch predictor learns; the seed is fixed, so each run has the same.
struct Numbers(u64);

impl Numbers {
    fn next(&mut self) -> u64 {
        self.0 ^= self.0 << 13;
        self.0 ^= self.0 >> 7;
        self.0 ^= self.0 << 17;
        self.0
    }
}

struct Case {
    name: &'static str,
    bytes: Vec<u8>,
    count: usize,
}

/// As many numbers as begin in a megabyte, each chosen from a random one and in at least so many bytes.
fn case(name: &'static str, choose: fn(u64) -> u64, least: usize) -> Case {
    let mut numbers = Numbers(0x9E37_79B9_7F4A_7C15);
    let mut bytes = Vec::with_capacity(BYTES + 9);
    let mut count = 0;
    while bytes.len() < BYTES {
        put_v64(&mut bytes, choose(numbers.next()), least);
        count += 1;
    }
    Case { name, bytes, count }
}

fn best(case: &Case, sum: fn(&[u8]) -> u64) -> f64 {
    let mut least = f64::INFINITY;
    for _ in 0..REPETITIONS {
        let start = Instant::now();
        black_box(sum(black_box(&case.bytes)));
        least = least.min(start.elapsed().as_nanos() as f64);
    }
    least / case.count as f64
}

fn main() {
    let mixed = |r: u64| r >> (r % 64);
    let cases = [
        case("one byte", |r| r % 128, 1),
        case("nine bytes", |r| r | 1 << 63, 1),
        case("mixed, 1 to 9", mixed, 1),
        case("padded to nine", mixed, 9),
    ];
    println!("v64, ns a number    proved    plain    proved / plain");
    for case in &cases {
        assert_eq!(
            proved::sum(&case.bytes),
            plain_sum(&case.bytes),
            "{}",
            case.name
        );
        let proved = best(case, proved::sum);
        let plain = best(case, plain_sum);
        println!(
            "{:<18}{proved:>8.2}{plain:>9.2}{:>18.2}",
            case.name,
            proved / plain
        );
    }
}
