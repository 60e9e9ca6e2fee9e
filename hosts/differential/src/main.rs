//! Compares the proved engine, through the host library, with the plain one on random calls: valid and damaged tables, segments in any
//! pieces, inner runs inside them, forged records and stacks, short memory. After each call the answer, both records and every register,
//! place and program word are compared, with some cells past those lent. So are previews of tokens (`tries`), tables in house order
//! (`house`), rankings of candidates (`ranks`), tree sheets written and judged (`sheets`) and the calls on windows (`windows`).
//!
//!     differential [SEED [CALLS]]
mod forge;
mod house;
mod inside;
mod pair;
mod random;
mod ranks;
mod records;
mod segments;
mod sheets;
mod tables;
mod tries;
mod windows;

use pair::{Call, Lengths, Pair};
use plain::samples;
use plain::table::Outline;
use random::Random;
use segments::Segments;
use std::collections::BTreeMap;

const CALLS: u64 = 150_000;

/// A table, with what the plain engine read where it accepts it.
struct Table {
    bytes: Vec<u8>,
    outline: Option<Outline>,
}

impl Table {
    fn new(bytes: Vec<u8>) -> Table {
        let outline = plain::check(&bytes).ok().map(|(o, _)| o);
        Table { bytes, outline }
    }
}

struct Comparison {
    r: Random,
    made: u64,
    /// The calls on windows, which `made` does not count.
    windows: u64,
    /// The answers: call and number of the refusal, 0 for none.
    answers: BTreeMap<(&'static str, u32), u64>,
    samples: Vec<Vec<u8>>,
}

impl Comparison {
    fn count(&mut self, call: &'static str, number: u32) {
        self.made += 1;
        *self.answers.entry((call, number)).or_default() += 1;
    }

    fn sound_table(&mut self) -> Table {
        let r = &mut self.r;
        match r.below(100) {
            0 => Table::new(samples::chain(47, 33, 512)),
            1..=20 => Table::new(r.pick(&self.samples).clone()),
            _ => loop {
                let table = Table::new(tables::random(r));
                if table.outline.is_some() || r.chance(8) {
                    return table;
                }
            },
        }
    }

    fn table(&mut self) -> Table {
        let mut table = self.sound_table();
        if self.r.chance(30) {
            table = Table::new(tables::shuffled(&mut self.r, &table.bytes));
        }
        if self.r.chance(12) {
            return Table::new(tables::damaged(&mut self.r, &table.bytes));
        }
        table
    }

    fn lengths(&mut self) -> Lengths {
        let r = &mut self.r;
        let (registers, places) = match r.below(10) {
            0 => (4096 + r.below(3), 1024 + r.below(3)),
            1 | 2 => (r.below(12), r.below(8)),
            _ => (20 + r.below(100), 10 + r.below(60)),
        };
        Lengths { registers, places, program: 16384 + r.below(3) }
    }

    fn judge(&mut self, table: &[u8]) -> Result<(), String> {
        let plain = plain::check(table).map(drop).map_err(|r| (r.number, r.offset as u64));
        let proved = segment::check(table).map_err(|r| (r.number(), r.count()));
        self.count("check", proved.err().map_or(0, |e| e.0));
        if plain != proved {
            return Err(format!("check: proved {proved:?}, plain {plain:?}\ntable {}", hex(table)));
        }
        let production = if self.r.chance(5) { self.r.number() as usize } else { self.r.below(12) };
        let plain = plain::stretch(table, production).map_err(|r| (r.number, r.offset as u64));
        let proved = segment::lent::stretch(table, production).map(|(s, n)| (s, s + n)).map_err(|r| (r.number(), r.count()));
        self.count("stretch", proved.err().map_or(0, |e| e.0));
        if plain != proved {
            return Err(format!("stretch of {production}: proved {proved:?}, plain {plain:?}\ntable {}", hex(table)));
        }
        let number = house::compared(&mut self.r, table)?;
        self.count("house", number);
        Ok(())
    }

    fn call(&mut self, pair: &mut Pair, table: &[u8], call: Call) -> Result<u32, String> {
        let brought = (pair.records, pair.lengths);
        let (number, _, _) = pair.call(table, call).map_err(|e| format!("{e}\ncall {call:?} on {brought:?}\ntable {}", hex(table)))?;
        self.count(call.name(), number);
        Ok(number)
    }

    /// A value for each of so many tokens; now and then a list of another length.
    fn values(&mut self, tokens: usize) -> Vec<i32> {
        let r = &mut self.r;
        let many = if r.chance(3) { r.below(tokens + 3) } else { tokens };
        (0..many).map(|_| r.value()).collect()
    }

    /// Sometimes a call on forged state, of another table, or with other lengths; mostly the run then goes on as it was.
    fn disturb(&mut self, pair: &mut Pair, table: &[u8]) -> Result<(), String> {
        if !self.r.chance(25) {
            return Ok(());
        }
        let mut tried = pair.clone();
        let another = self.table().bytes;
        let mut of = table;
        match self.r.below(8) {
            0 => of = &another,
            1 | 2 => tried.lend(&mut self.r),
            _ => tried.forge(&mut self.r),
        }
        let kinds: Vec<u8> = (0..self.r.below(4)).map(|_| self.r.below(4) as u8).collect();
        let values = self.values(kinds.len());
        let call = match self.r.below(9) {
            0 => Call::Open,
            1..=3 => Call::Finish,
            _ => Call::Feed(&kinds, &values),
        };
        self.call(&mut tried, of, call)?;
        if self.r.chance(20) {
            *pair = tried;
        }
        Ok(())
    }

    fn run(&mut self, table: &Table) -> Result<(), String> {
        let lengths = self.lengths();
        let mut pair = Pair::new(&mut self.r, lengths);
        self.disturb(&mut pair, &table.bytes)?;
        self.call(&mut pair, &table.bytes, Call::Open)?;
        let segment = match &table.outline {
            Some(outline) => Segments::new(outline).random(&mut self.r),
            None => vec![0, 1],
        };
        let mut at = 0;
        while at < segment.len() {
            self.disturb(&mut pair, &table.bytes)?;
            if self.r.chance(20) {
                pair.forge_values(&mut self.r);
            }
            if self.r.chance(15) {
                inside::run(self, &mut pair, &table.bytes)?;
            }
            tries::sometimes(self, &pair, &table.bytes, 12)?;
            let longest = if self.r.chance(70) { segment.len() - at } else { 3 };
            let end = segment.len().min(at + self.r.below(longest + 1));
            let values = self.values(end - at);
            match self.call(&mut pair, &table.bytes, Call::Feed(&segment[at..end], &values))? {
                0 => at = end,
                38 => {}
                _ if self.r.chance(80) => break,
                _ => at = end,
            }
        }
        self.disturb(&mut pair, &table.bytes)?;
        if self.r.chance(10) {
            inside::run(self, &mut pair, &table.bytes)?;
        }
        self.call(&mut pair, &table.bytes, Call::Finish)?;
        tries::sometimes(self, &pair, &table.bytes, 5)
    }

    /// A ranking after some of the runs. What its candidates come to is counted apart.
    fn rank(&mut self, table: &Table) -> Result<(), String> {
        if !self.r.chance(15) {
            return Ok(());
        }
        let mut lengths = self.lengths();
        lengths.program -= if self.r.chance(4) { 3 } else { 0 };
        let (number, refusals) = ranks::compared(&mut self.r, table, lengths)?;
        self.count("rank", number);
        for refusal in refusals {
            *self.answers.entry(("ranked candidate", refusal)).or_default() += 1;
        }
        Ok(())
    }

    /// Sheets after some of the runs.
    fn sheet(&mut self, table: &Table) -> Result<(), String> {
        if !self.r.chance(15) {
            return Ok(());
        }
        for number in sheets::written_alike(&mut self.r, table)? {
            self.count("sheet", number);
        }
        for number in sheets::compared(&mut self.r, table)? {
            self.count("judge", number);
        }
        Ok(())
    }

    /// A window after some of the runs.
    fn window(&mut self) -> Result<(), String> {
        if !self.r.chance(5) {
            return Ok(());
        }
        let Comparison { r, windows, answers, .. } = self;
        windows::run(r, |call, number| {
            *windows += 1;
            *answers.entry((call, number)).or_default() += 1;
        })
    }

    /// All calls on a table.
    fn all(&mut self, table: &Table) -> Result<(), String> {
        self.judge(&table.bytes)?;
        self.run(table)?;
        self.rank(table)?;
        self.sheet(table)?;
        self.window()
    }

    fn report(&self) {
        let mut line = "";
        for ((call, number), times) in &self.answers {
            if *call != line {
                print!("{}{call}:", if line.is_empty() { "" } else { "\n" });
                line = call;
            }
            match number {
                0 => print!(" answered {times}"),
                _ => print!(", {number} {times}"),
            }
        }
        println!();
    }

    /// The numbers of 01 and 02 that no call was refused with.
    fn missing(&self) -> Vec<u32> {
        let seen = |n: &u32| self.answers.keys().any(|(_, number)| number == n);
        (1..=14).chain(20..=24).chain(30..=35).chain(36..=43).filter(|n| !seen(n)).collect()
    }
}

fn hex(bytes: &[u8]) -> String {
    bytes.iter().map(|b| format!("{b:02x}")).collect()
}

fn number(argument: Option<String>) -> Option<u64> {
    argument.map(|a| a.parse().expect("differential [SEED [CALLS]]"))
}

/// On a thread with the stack that sheets need.
fn main() {
    let thread = std::thread::Builder::new().stack_size(segment::lent::SHEET_STACK).spawn(compare).expect("a thread");
    if thread.join().is_err() {
        std::process::exit(1);
    }
}

fn compare() {
    let mut arguments = std::env::args().skip(1);
    let now = std::time::SystemTime::now().duration_since(std::time::UNIX_EPOCH).unwrap();
    let seed = number(arguments.next()).unwrap_or(now.as_nanos() as u64);
    let calls = number(arguments.next()).unwrap_or(CALLS);
    println!("seed {seed}");
    let samples =
        vec![samples::words(), samples::lengths(), samples::lines(), samples::brackets(), samples::chain(1, 0, 0), samples::chain(3, 2, 8)];
    let mut c = Comparison { r: Random::new(seed), made: 0, windows: 0, answers: BTreeMap::new(), samples };
    while c.made < calls {
        let table = c.table();
        if let Err(difference) = c.all(&table) {
            println!("call {} differs: {difference}", c.made + 1);
            std::process::exit(1);
        }
    }
    c.report();
    println!("{} calls and {} on windows, all alike", c.made, c.windows);
    let missing = c.missing();
    if calls >= CALLS && !missing.is_empty() {
        println!("but no call was refused with {missing:?}");
        std::process::exit(1);
    }
}
