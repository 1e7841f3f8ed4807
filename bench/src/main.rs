//! What every entry of include/film_index.h costs, beside the Rust where it has one, as its input grows, and on inputs made to be costly. One run makes
//! all tables: each measured piece of work stands between two calls of `mark`, at which callgrind writes down the instructions since the call before
//! (bench/run). The lines that this program prints say what each piece was, in order.

mod calls;
mod entries;
mod growth;
mod hostile;
mod inputs;
mod listing;
mod requests;

use std::hint::black_box;

/// The lines of the pieces measured so far.
pub struct Bench {
    lines: Vec<String>,
}

#[unsafe(no_mangle)]
#[inline(never)]
extern "C" fn bench_mark() {
    black_box(());
}

impl Bench {
    /// Does the work once unseen, so that nothing is done for the first time, and once between two marks. The line has cells, divided by tabs.
    pub fn measure(&mut self, line: String, mut work: impl FnMut()) {
        work();
        bench_mark();
        work();
        bench_mark();
        self.lines.push(line);
    }

    /// The same where the work is long and needs no first time.
    pub fn once(&mut self, line: String, work: impl FnOnce()) {
        bench_mark();
        work();
        bench_mark();
        self.lines.push(line);
    }
}

pub fn main() {
    let mut bench = Bench { lines: Vec::new() };
    let words: Vec<String> = std::env::args().skip(1).collect();
    bench.measure("nothing".into(), || ());
    for table in &words {
        match table.as_str() {
            "entries" => {
                entries::run(&mut bench);
                requests::run(&mut bench);
            }
            "growth" => growth::run(&mut bench),
            "samples" => {
                growth::samples(&mut bench);
                requests::samples(&mut bench);
                requests::judged(&mut bench);
            }
            "periods" => growth::periods(&mut bench),
            "hostile" => hostile::run(&mut bench),
            "listings" => listing::run(&mut bench),
            _ => panic!("bench entries|growth|samples|periods|hostile|listings .."),
        }
    }
    println!("{}", bench.lines.join("\n"));
}
