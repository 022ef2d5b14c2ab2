//! Three sides of one call: the proved engine, plain Rust, tuned Rust. oracle/bench.sh runs this.
//!     speed fuzz MESSAGES            compare all three on random messages
//!     speed count SIDE LOAD          one batch of one side, for an instruction counter
//!     speed time ROUNDS              measure all sides
//!     speed table COUNTS TIMES       print the table of the two files

mod fuzz;
mod loads;
mod table;

/// The same signature for all: the log's seven words, the stores, the message, room for the answer's two words; 0 or the refusal.
pub type MaybeAppend = fn(&mut [u64], &[u64], &mut [u64], u64, u64, u64, &[u64], &mut [u64]) -> u64;

pub struct Side {
    pub name: &'static str,
    pub call: MaybeAppend,
}

pub const SIDES: [Side; 3] = [
    Side { name: "engine", call: engine::maybe_append },
    Side { name: "plain", call: plain::maybe_append },
    Side { name: "tuned", call: tuned::maybe_append },
];

/// Bytes that are never run, so that the same machine code comes to lie elsewhere. That alone can move a time by a tenth.
extern "C" fn padding() {
    unsafe { std::arch::asm!(concat!(".skip ", env!("PLACE"), ", 0x90")) }
}

#[used]
static PADDING: extern "C" fn() = padding;

fn main() {
    let words: Vec<String> = std::env::args().skip(1).collect();
    let words: Vec<&str> = words.iter().map(String::as_str).collect();
    match words[..] {
        ["fuzz", messages] => fuzz::compare(number(messages)),
        ["count", side, load] => count(side, load),
        ["time", rounds] => table::measure(number(rounds)),
        ["table", counts, times] => table::print(counts, times),
        _ => panic!("speed fuzz MESSAGES | count SIDE LOAD | time ROUNDS | table COUNTS TIMES"),
    }
}

fn number(word: &str) -> u64 {
    word.parse().expect("a number")
}

fn count(side: &str, load: &str) {
    let side = SIDES.iter().find(|s| s.name == side).expect("a side");
    let load = loads::all().into_iter().find(|l| l.name == load).expect("a load");
    let mut pending = load.empty_store();
    load.drive(side.call, &mut pending);
    println!("appends {}", load.messages.len());
}
