//! Medians of times, with both programs and the copy in turn, and with the fill alone where the row is of both calls.

use std::env;
use std::hint::black_box;
use std::time::Duration;

use compare::reader::{Reader, Second};

use crate::calls::{Call, Memory};
use crate::clock;
use crate::proved::Proved;
use crate::rows::Task;

/// How many times each program is timed at most, unless the environment says otherwise.
const REPETITIONS: usize = 31;

/// How many times it is timed at least, and the time after which that is enough.
const LEAST: usize = 5;
const ENOUGH: Duration = Duration::from_secs(1);

/// How long a repetition is at least, so that reading the clock is none of it: a short call is made as often as that takes.
const SAMPLE: Duration = Duration::from_micros(200);

/// Nanoseconds that a call takes.
#[derive(Clone, Copy)]
pub struct Times {
    pub proved: f64,
    pub second: f64,
    pub copy: f64,
    /// Of the fill alone, proved and second, where the call is both.
    alone: Option<[f64; 2]>,
}

impl Times {
    pub fn ratio(self) -> f64 {
        self.proved / self.second
    }

    /// The limit by the same measure.
    pub fn limit(self) -> f64 {
        self.copy / self.second
    }

    /// Both calls by the fill alone, proved and second, where the call is both.
    pub fn by_fill_alone(self) -> Option<[f64; 2]> {
        let [proved, second] = self.alone?;
        Some([self.proved / proved, self.second / second])
    }
}

/// What is timed in turn.
#[derive(Clone, Copy)]
enum Work {
    Ask(Call, &'static dyn Reader),
    Copy,
}

/// A call by both programs, then its fill alone where it is both, and the copy.
fn works(call: Call) -> Vec<Work> {
    let calls = [Some(call), call.fill_alone()].into_iter().flatten();
    let asks = calls.flat_map(|call| [Work::Ask(call, &Proved), Work::Ask(call, &Second)]);
    asks.chain([Work::Copy]).collect()
}

impl Work {
    fn once(self, task: &Task, memory: &mut Memory) {
        match self {
            Work::Ask(call, reader) => {
                let input = black_box(&task.input[..]);
                black_box(call.ask(reader, input, memory));
            }
            Work::Copy => {
                let limit = black_box(&task.limit[..]);
                memory.bytes[..limit.len()].copy_from_slice(limit);
                black_box(&memory.bytes);
            }
        }
    }

    /// The time of so many, one after another.
    fn many(self, often: u32, task: &Task, memory: &mut Memory) -> Duration {
        let start = clock::now();
        for _ in 0..often {
            self.once(task, memory);
        }
        clock::now() - start
    }

    /// How often it is done in a repetition. This also warms up what it needs.
    fn often(self, task: &Task, memory: &mut Memory) -> u32 {
        let mut often = 1;
        while self.many(often, task, memory) < SAMPLE {
            often *= 2;
        }
        often
    }
}

/// Times tasks, over memory that is lent to one after another.
pub struct Timer {
    memory: Memory,
    /// For the answers of the second program, where they are compared.
    other: Memory,
    repetitions: usize,
}

impl Timer {
    pub fn new() -> Self {
        Timer {
            memory: Memory::new(),
            other: Memory::new(),
            repetitions: repetitions(),
        }
    }

    /// The medians of a task's times.
    pub fn times(&mut self, task: &Task) -> Times {
        self.agree(task);
        let memory = &mut self.memory;
        let works = works(task.call);
        let often: Vec<u32> = works.iter().map(|work| work.often(task, memory)).collect();
        let mut lists: Vec<Vec<f64>> = vec![Vec::new(); works.len()];
        let start = clock::now();
        for round in 0..self.repetitions {
            if round >= LEAST && clock::now() - start > ENOUGH {
                break;
            }
            for work in order(round, works.len() - 1) {
                let time = works[work].many(often[work], task, memory);
                lists[work].push(time.as_nanos() as f64 / f64::from(often[work]));
            }
        }
        let medians: Vec<f64> = lists.into_iter().map(median).collect();
        Times {
            proved: medians[0],
            second: medians[1],
            copy: medians[works.len() - 1],
            alone: task.call.fill_alone().map(|_| [medians[2], medians[3]]),
        }
    }

    /// Both must say the same before their times mean anything.
    fn agree(&mut self, task: &Task) {
        let call = task.call;
        let answer = call.ask(&Proved, &task.input, &mut self.memory);
        assert!(answer >= 0, "no file here is refused");
        assert_eq!(answer, call.ask(&Second, &task.input, &mut self.other));
        let written = call.written(answer, &self.memory);
        assert!(written == call.written(answer, &self.other));
    }
}

/// So many calls and then the copy. Each call comes first as often as the others, so that none always finds what the copy
/// has left in the cache.
fn order(round: usize, calls: usize) -> impl Iterator<Item = usize> {
    let turned = (0..calls).map(move |call| (call + round) % calls);
    turned.chain([calls])
}

fn median(mut times: Vec<f64>) -> f64 {
    times.sort_by(f64::total_cmp);
    times[times.len() / 2]
}

fn repetitions() -> usize {
    let number = env::var("REPETITIONS").map_or(REPETITIONS, |number| {
        number.parse().expect("REPETITIONS is a number")
    });
    number.max(1)
}
