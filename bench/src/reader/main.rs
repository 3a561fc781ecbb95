//! The proved reader against the second program: the same files, one run, the median of several repetitions, each program
//! in turn, so that both see the same machine, and in time of the processor, so that other work on it does not count.
//! `rt lib` in crates/capi first. It prints a table; `--draw FILE` draws it as well, as an SVG, and `--figures FILE` puts its
//! ratios into a page. Words on the command line choose the rows whose names begin with one of them, as `'check v64'`,
//! `fill_values` or `'count and fill'`, and REPETITIONS in the environment says how many there are at most, for a slow
//! machine.
//!
//! What is compared: both are asked by the same calls, read the whole file, and leave the lent table cleared. The second
//! program keeps what it reads in lists on the heap, which it makes anew for each call and drops at its end; the proved one
//! keeps it in the lent table, and has no heap. Neither is spared its own way, since a caller pays for it at every call.
//! Most files have few such lists, so nearly all of their time is the values'; where many pairs enter many types, it is
//! the lists' own. A listing the second program makes on the heap and copies; the proved one is lent the room that the
//! header advises, and writes each byte where it belongs. A text both take apart and hold to the rules before they write a
//! file, each in its own way.
//!
//! The files come at a sixteenth, a quarter and the whole of their size: a time that grows in a straight line has the same
//! ratio, and the same cost a byte, at all three. Where a file is hard for its many pairs it is these that are divided, and
//! the cost is that of an entry. Values of mixed lengths, one to nine bytes, stand in their shortest coding and, in a file
//! of its own, in nine bytes each, as a controller writes them that fills its numbers in afterwards.
//!
//! The values of a field are timed three ways. `count_values` says how many there are. `fill_values` is lent room for any
//! field, and nothing is asked before. `count and fill` is both calls, the second with exactly as much room as the first has
//! said; to make that room is not timed. A row of both has the fill alone timed in turn with it, and the last table divides
//! by that: so much it costs to ask first.
//!
//! The limit is a plain copy: of the file where a call only reads, of what is written where it writes. A fill can be
//! below it where its values take fewer bytes in the file than the eight that each has in memory: a copy reads as much as
//! it writes.

mod calls;
mod clock;
mod drawing;
mod machine;
mod page;
#[path = "../../../compare/src/proved.rs"]
mod proved;
mod rows;
mod table;
mod timing;

use std::env;
use std::fs;

use rows::Row;
use table::Measured;
use timing::Timer;

/// What the command line says.
struct Wish {
    /// Where to draw the table.
    draw: Option<String>,
    /// The page to put its ratios into.
    figures: Option<String>,
    /// How the names of the rows begin; without words all are meant.
    words: Vec<String>,
}

impl Wish {
    fn of(mut words: impl Iterator<Item = String>) -> Self {
        let mut wish = Wish {
            draw: None,
            figures: None,
            words: Vec::new(),
        };
        while let Some(word) = words.next() {
            match word.as_str() {
                "--draw" => wish.draw = Some(words.next().expect("--draw has a file")),
                "--figures" => wish.figures = Some(words.next().expect("--figures has a file")),
                _ => wish.words.push(word),
            }
        }
        wish
    }

    fn is_for(&self, row: &Row) -> bool {
        let begins = |word: &String| row.full_name().starts_with(word.as_str());
        self.words.is_empty() || self.words.iter().any(begins)
    }
}

fn main() {
    let wish = Wish::of(env::args().skip(1));
    let mut timer = Timer::new();
    println!("{}", table::HEAD);
    let mut all = Vec::new();
    for row in rows::all().into_iter().filter(|row| wish.is_for(row)) {
        let sizes = rows::PARTS.map(|part| {
            let task = row.task(part);
            let times = timer.times(&task);
            println!("{}", table::line(&row, &task, times));
            times
        });
        all.push(Measured { row, sizes });
    }
    let ratios = format!("{}\n\n{}", table::origin(), table::ratios(&all));
    println!("\n{ratios}");
    if let Some(path) = wish.draw {
        fs::write(&path, drawing::svg(&all)).expect("the drawing can be written");
    }
    if let Some(path) = wish.figures {
        let page = fs::read_to_string(&path).expect("the page can be read");
        let page = page::with_figures(&page, &ratios);
        fs::write(&path, page).expect("the page can be written");
    }
}
