//! Prints a random script: small books, all calls, damaged files, lines that cannot be read.
//! Usage: random SEED [CALL,CALL,..]   (only these calls; all without the list)
//!
//! The script is run on a register of the peer while it is made, so that chains, rooms and files fit what
//! the register holds then. Budgets are small, so a run ends quickly.

use peer::file::{self, Content};
use peer::load::{Load, ARTICLES};
use peer::order::{Listed, Order, REPORT};
use peer::script::Session;
use peer::sheet::Equation;
use peer::table::Rule;
use std::error::Error;
use std::io::Write;

const CALLS: [&str; 12] = [
    "new", "enter", "settle", "adopt", "reopen", "standard", "match", "replay", "write", "examine",
    "table", "lines",
];

/// A small generator of numbers (splitmix64).
struct Random(u64);

impl Random {
    fn next(&mut self) -> u64 {
        self.0 = self.0.wrapping_add(0x9e37_79b9_7f4a_7c15);
        let mut x = self.0;
        x = (x ^ x >> 30).wrapping_mul(0xbf58_476d_1ce4_e5b9);
        x = (x ^ x >> 27).wrapping_mul(0x94d0_49bb_1331_11eb);
        x ^ x >> 31
    }

    /// A number below a bound.
    fn below(&mut self, bound: usize) -> usize {
        (self.next() % bound.max(1) as u64) as usize
    }

    /// A number from `low` to `high`.
    fn between(&mut self, low: usize, high: usize) -> usize {
        low + self.below(high - low + 1)
    }

    fn percent(&mut self, percent: usize) -> bool {
        self.below(100) < percent
    }

    fn pick<'a, T>(&mut self, from: &'a [T]) -> &'a T {
        &from[self.below(from.len())]
    }
}

/// Lines that no reader of scripts understands.
const UNREADABLE: [&[u8]; 58] = [
    b"hello",
    b"News",
    b"new now",
    b"lines all",
    b"table 1",
    b"reopen 1",
    b"enter",
    b"enter a",
    b"enter a b",
    b"enter a =",
    b"enter = a",
    b"enter a == b",
    b"enter a=b",
    b"enter a = b = c",
    b"enter ba = c",
    b"enter aa = c",
    b"enter a1 = c",
    b"enter a0 = c",
    b"enter a02 = c",
    b"enter a65536 = c",
    b"enter a99999999999999999999 = c",
    b"enter i = a",
    b"enter A = b",
    b"enter 2 = b",
    b"enter 1a = b",
    b"enter -a = b",
    b"settle",
    b"settle report",
    b"settle report 5",
    b"settle report 5 50 1",
    b"settle report 4294967296 50",
    b"settle report 5 4294967296",
    b"settle report -1 50",
    b"settle rapport 5 50",
    b"settle weights 1,2,3,4,5,6,7 listed 5 50",
    b"settle weights 1,2,3,4,5,6,7,8,9 listed 5 50",
    b"settle weights 1,2,3,4,5,6,7,65536 listed 5 50",
    b"settle weights 1,2,3,4,5,6,,8 listed 5 50",
    b"settle weights 1,2,3,4,5,6,7,8 report 5 50",
    b"settle split ca listed bulk 5 50",
    b"settle split aa listed bulk 5 50",
    b"settle split ai listed bulk 5 50",
    b"settle split ac listed 5 50",
    b"settle split ac listed house 5 50",
    b"standard a",
    b"standard a x",
    b"match a b 5",
    b"match a b 1000001 5",
    b"replay",
    b"replay a 32768",
    b"replay a -32769",
    b"replay a --1",
    b"replay a 1 x 1",
    b"write 1000001",
    b"adopt report 5 0",
    b"adopt report 5 0g",
    b"examine 1 5",
    b"\xff\xfe\x00 \x80",
];

/// The script so far, and the register that it leaves.
struct Script<'a> {
    random: Random,
    calls: Vec<&'a str>,
    session: Session,
    text: Vec<u8>,
    /// Which articles the present book is about, and the most pieces of one in a load.
    articles: Vec<usize>,
    most: usize,
    /// Files of settled registers, each with its order and counted steps.
    files: Vec<(Vec<u8>, String, u32)>,
}

impl Script<'_> {
    /// Adds a line, unless it is a call that is left out. Gives the answer.
    fn line(&mut self, line: &[u8]) -> String {
        let word = line
            .split(|&byte| byte == b' ')
            .find(|word| !word.is_empty());
        let word = String::from_utf8_lossy(word.unwrap_or_default()).into_owned();
        let is_call = CALLS.contains(&word.as_str());
        if is_call && !self.calls.contains(&word.as_str()) {
            return String::new();
        }
        self.text.extend_from_slice(line);
        self.text.push(b'\n');
        let mut answer = String::new();
        self.session.feed(line, &mut answer);
        self.session.feed(b"\n", &mut answer);
        answer
    }

    /// Adds a call, now and then written another way.
    fn call(&mut self, call: &str) -> String {
        if self.random.percent(3) {
            let spaced = format!("  {}  ", call.replace(' ', "   "));
            return self.line(spaced.as_bytes());
        }
        self.line(call.as_bytes())
    }

    /// A load of the present articles.
    fn load(&mut self, most: usize) -> Load {
        let mut counts = [0; ARTICLES];
        for article in self.articles.clone() {
            if self.random.percent(60) {
                counts[article] = self.random.between(0, most) as u16;
            }
        }
        if self.random.percent(2) {
            for count in &mut counts {
                if self.random.percent(40) {
                    *count = self.random.next() as u16;
                }
            }
        }
        Load::of(counts)
    }

    /// A load with some piece in it, but for a few.
    fn side(&mut self) -> Load {
        for _ in 0..4 {
            let load = self.load(self.most);
            if !load.is_empty() {
                return load;
            }
        }
        Load::EMPTY
    }

    /// The most pieces of an article in a load that is reduced or swapped.
    fn goods(&self) -> usize {
        (3 * self.most).min(65535)
    }

    fn order(&mut self) -> String {
        let simple = ["listed", "bulk"];
        match self.random.below(8) {
            0 => "listed".into(),
            1 => "bulk".into(),
            2 | 3 => "report".into(),
            4 => "house".into(),
            5 | 6 => {
                let most = *self.random.pick(&[1, 3, 9, 65535]);
                let row: Vec<String> = (0..ARTICLES)
                    .map(|_| self.random.between(0, most).to_string())
                    .collect();
                format!("weights {} {}", row.join(","), self.random.pick(&simple))
            }
            _ => {
                let marks = self.random.between(1, 255);
                let letters: String = ('a'..='h')
                    .enumerate()
                    .filter(|(article, _)| marks >> article & 1 == 1)
                    .map(|(_, letter)| letter)
                    .collect();
                let first = self.random.pick(&simple);
                let second = self.random.pick(&simple);
                format!("split {letters} {first} {second}")
            }
        }
    }

    fn budget(&mut self) -> usize {
        match self.random.below(6) {
            0 => self.random.below(4),
            1 => self.random.below(60),
            _ => *self.random.pick(&[500, 3000, 20000]),
        }
    }

    fn count(&self) -> usize {
        self.session.register().sheet().count()
    }

    /// A chain that can be followed from a load, and the load at its end.
    fn walk(&mut self, load: &Load, steps: usize) -> (Vec<i16>, Load) {
        let mut end = *load;
        let mut chain = Vec::new();
        for _ in 0..steps * 4 {
            let number = self.random.between(1, self.count().max(1)) as i16;
            let number = if self.random.percent(50) {
                number
            } else {
                -number
            };
            if let Ok((next, _)) = self.session.register().replay(&end, &[number]) {
                chain.push(number);
                end = next;
            }
            if chain.len() == steps {
                break;
            }
        }
        (chain, end)
    }

    fn enter(&mut self) {
        let left = self.side();
        let right = if self.random.percent(4) {
            left
        } else {
            self.side()
        };
        self.call(&format!("enter {left} = {right}"));
    }

    fn settle(&mut self) {
        let order = self.order();
        let capacity = match self.random.below(8) {
            0 => *self.random.pick(&[0, 129, 4_294_967_295]),
            1 | 2 => self.random.between(1, 6),
            _ => 128,
        };
        let budget = self.budget();
        let answer = self.call(&format!("settle {order} {capacity} {budget}"));
        self.keep_file(&answer, order);
    }

    /// Keeps the file of a register that is settled now.
    fn keep_file(&mut self, answer: &str, order: String) {
        let words: Vec<&str> = answer.split_whitespace().collect();
        let [_, _, _, _, _, steps, "steps"] = words[..] else {
            return;
        };
        let mut bytes = Vec::new();
        if self.session.register().write(&mut bytes, 40_000).is_ok() {
            self.files.push((bytes, order, steps.parse().unwrap_or(0)));
        }
    }

    fn standard(&mut self) {
        let load = self.load(self.goods());
        let budget = self.budget();
        self.call(&format!("standard {load} {budget}"));
    }

    fn match_loads(&mut self) {
        let first = self.load(self.goods());
        let second = if self.random.percent(60) {
            let steps = self.random.below(12);
            self.walk(&first, steps).1
        } else {
            self.load(self.goods())
        };
        let room = match self.random.below(3) {
            0 => self.random.below(12),
            _ => *self.random.pick(&[0, 100, 4000, 1_000_000]),
        };
        let budget = self.budget();
        self.call(&format!("match {first} {second} {room} {budget}"));
    }

    fn replay(&mut self) {
        let load = self.load(self.goods());
        let steps = self.random.below(10);
        let (mut chain, _) = self.walk(&load, steps);
        if self.random.percent(40) {
            let number = match self.random.below(4) {
                0 => *self.random.pick(&[0, i16::MIN, i16::MAX]),
                1 => self.count() as i16 + 1,
                _ => self.random.between(1, self.count() + 2) as i16,
            };
            let place = self.random.between(0, chain.len());
            chain.insert(place, number);
        }
        let chain: String = chain.iter().map(|number| format!(" {number}")).collect();
        self.call(&format!("replay {load}{chain}"));
    }

    fn write(&mut self) {
        let mut bytes = Vec::new();
        let size = self
            .session
            .register()
            .write(&mut bytes, 40_000)
            .unwrap_or(40);
        let room = match self.random.below(5) {
            0 => format!(" {size}"),
            1 => format!(" {}", size - 1),
            2 => " 1000000".into(),
            3 => format!(" {}", self.random.below(2 * size)),
            _ => String::new(),
        };
        self.call(&format!("write{room}"));
    }

    /// Adopts the present register's own file with just the steps it needs, after one step too few.
    fn hand_over(&mut self) {
        let Some((bytes, order, steps)) = self.files.last().cloned() else {
            return;
        };
        self.call("reopen");
        if steps > 0 {
            self.call(&format!("adopt {order} {} {}", steps - 1, hex(&bytes)));
        }
        self.call(&format!("adopt {order} {steps} {}", hex(&bytes)));
        self.call("table");
        self.call("lines");
    }

    /// A file as it was written, or damaged, with its order or another.
    fn some_file(&mut self) -> (Vec<u8>, String, usize) {
        if self.random.percent(20) {
            return self.bare_file();
        }
        let Some((bytes, order, steps)) = self.files.last().cloned() else {
            let size = self.random.below(24);
            let bytes = (0..size).map(|_| self.random.next() as u8).collect();
            return (bytes, self.order(), 100);
        };
        let bytes = match self.random.below(10) {
            0 => bytes,
            1..=5 => self.changed(bytes),
            _ => self.damaged(bytes),
        };
        let order = if self.random.percent(80) {
            order
        } else {
            self.order()
        };
        let budget = match self.random.below(4) {
            0 => self.budget(),
            1 => steps as usize,
            _ => 20000,
        };
        (bytes, order, budget)
    }

    /// A file whose rules are those equations of the book that fall, without any added line.
    fn bare_file(&mut self) -> (Vec<u8>, String, usize) {
        let equations = self.session.register().sheet().book.clone();
        let report = self.random.percent(50);
        let compare = |a: &Load, b: &Load| match report {
            true => REPORT.compare(a, b),
            false => Listed.compare(a, b),
        };
        let mut rules = Vec::new();
        for (place, &Equation { left, right }) in equations.iter().enumerate() {
            let line = place as u16 + 1;
            if compare(&left, &right).is_gt() || self.random.percent(5) {
                rules.push(Rule { left, right, line });
            }
        }
        rules.sort_by(|a, b| compare(&a.left, &b.left));
        let content = Content {
            equations,
            rules,
            ..Content::default()
        };
        let mut bytes = Vec::new();
        content.parts().write(&mut bytes);
        let order = if report { "report" } else { "listed" };
        (bytes, order.into(), self.budget())
    }

    /// One byte changed, or the file cut or made longer.
    fn damaged(&mut self, mut bytes: Vec<u8>) -> Vec<u8> {
        let place = if self.random.percent(25) {
            self.random.below(16)
        } else {
            self.random.below(bytes.len())
        };
        match self.random.below(8) {
            0 => bytes.truncate(place),
            1 => bytes.push(self.random.next() as u8),
            2 => bytes[place] = bytes[place].wrapping_add(1),
            3 => bytes[place] = bytes[place].wrapping_sub(1),
            4 => bytes[place] ^= 1 << self.random.below(8),
            5 => bytes[place] = 0,
            _ => bytes[place] = self.random.next() as u8,
        }
        bytes
    }

    /// A well-formed file that holds something else.
    fn changed(&mut self, bytes: Vec<u8>) -> Vec<u8> {
        let Ok(mut content) = file::read(&bytes) else {
            return bytes;
        };
        self.change(&mut content);
        if self.random.percent(20) {
            self.change(&mut content);
        }
        let mut bytes = Vec::new();
        content.parts().write(&mut bytes);
        bytes
    }

    fn change(&mut self, content: &mut Content) {
        let Content {
            equations,
            rules,
            lines,
            chain,
        } = content;
        match self.random.below(14) {
            0 | 1 if !rules.is_empty() => {
                rules.remove(self.random.below(rules.len()));
            }
            2 if rules.len() > 1 => {
                let place = self.random.below(rules.len() - 1);
                rules.swap(place, place + 1);
            }
            3 if !rules.is_empty() => {
                let place = self.random.below(rules.len());
                rules[place].line = self.random.below(equations.len() + lines.len() + 2) as u16;
            }
            4 | 5 if !lines.is_empty() => {
                // One more rule: the claim of some line.
                let place = self.random.below(lines.len());
                let Equation { left, right } = lines[place].claim;
                let line = (equations.len() + place + 1) as u16;
                let at = self.random.between(0, rules.len());
                rules.insert(at, Rule { left, right, line });
            }
            6 if !rules.is_empty() && !lines.is_empty() => {
                // A rule put back to the claim of another line with the same left load.
                let rule = self.random.below(rules.len());
                let place = self.random.below(lines.len());
                if lines[place].claim.left == rules[rule].left {
                    rules[rule].right = lines[place].claim.right;
                    rules[rule].line = (equations.len() + place + 1) as u16;
                }
            }
            7 if !lines.is_empty() => {
                if let Some(line) = lines.pop() {
                    chain.truncate(chain.len() - usize::from(line.length).min(chain.len()));
                }
            }
            8 if !chain.is_empty() => {
                let place = self.random.below(chain.len());
                let limit = equations.len() + lines.len() + 1;
                let number = self.random.between(0, limit) as i16;
                chain[place] = *self
                    .random
                    .pick(&[number, -number, -chain[place], i16::MIN]);
            }
            9 if lines.len() > 1 => {
                let place = self.random.below(lines.len() - 1);
                lines[place].length = lines[place].length.wrapping_add(1);
                if self.random.percent(60) {
                    lines[place + 1].length = lines[place + 1].length.wrapping_sub(1);
                }
            }
            10 if !lines.is_empty() => {
                let place = self.random.below(lines.len());
                let load = self.load(self.most);
                lines[place].claim.right = load;
            }
            11 if !equations.is_empty() => {
                let place = self.random.below(equations.len());
                let Equation { left, right } = equations[place];
                equations[place] = Equation {
                    left: right,
                    right: left,
                };
                if self.random.percent(30) {
                    equations[place].right = Load::EMPTY;
                }
            }
            12 if !lines.is_empty() => {
                // A detour in a chain: some line there and back.
                let place = self.random.below(lines.len());
                let before: usize = lines[..place].iter().map(|l| usize::from(l.length)).sum();
                let number = self.random.between(1, equations.len() + place) as i16;
                let number = *self.random.pick(&[number, -number]);
                let at = before + self.random.between(0, usize::from(lines[place].length));
                if at <= chain.len() {
                    chain.splice(at..at, [number, -number]);
                    lines[place].length = lines[place].length.saturating_add(2);
                }
            }
            _ if !equations.is_empty() => {
                equations.pop();
            }
            _ => {}
        }
    }

    fn adopt(&mut self) {
        if self.files.is_empty() && self.random.percent(80) {
            return self.settle();
        }
        let (bytes, order, budget) = self.some_file();
        let answer = self.call(&format!("adopt {order} {budget} {}", hex(&bytes)));
        self.keep_file(&answer, order);
    }

    fn examine(&mut self) {
        if self.files.is_empty() && self.random.percent(80) {
            return self.settle();
        }
        let (bytes, order, budget) = self.some_file();
        let rule = match order.as_str() {
            "report" if self.random.percent(80) => 1,
            "house" if self.random.percent(80) => 2,
            _ if self.random.percent(30) => self.random.below(4),
            _ => self.random.between(1, 2),
        };
        self.call(&format!("examine {rule} {budget} {}", hex(&bytes)));
    }

    /// A line that cannot be read, or a good one with a byte changed.
    fn misspelt(&mut self) {
        if self.random.percent(60) {
            let line = *self.random.pick(&UNREADABLE);
            self.line(line);
            return;
        }
        let load = self.load(9);
        let line = match self.random.below(5) {
            0 => format!("enter {load} = ab2"),
            1 => format!("replay {load} 1 -1"),
            2 => format!("standard {load} 300"),
            3 => format!("match {load} ab2c3 20 300"),
            _ => "settle report 128 300".into(),
        };
        let mut line = line.into_bytes();
        let place = self.random.below(line.len());
        line[place] = *self.random.pick(b"0123456789abcdefghij-,=\t\r\xc3\x00");
        self.line(&line);
    }

    /// A book and calls on its register.
    fn register(&mut self) {
        self.call("new");
        self.files.clear();
        let kinds = match self.random.below(10) {
            0 => ARTICLES,
            1 | 2 => self.random.between(5, 7),
            _ => self.random.between(1, 4),
        };
        let mut all: Vec<usize> = (0..ARTICLES).collect();
        self.articles = (0..kinds)
            .map(|_| all.remove(self.random.below(all.len())))
            .collect();
        self.most = match self.random.below(12) {
            0 => *self.random.pick(&[300, 20000, 65535]),
            _ => self.random.between(1, 4),
        };
        let equations = if self.random.percent(3) {
            self.random.between(30, 35)
        } else {
            self.random.between(0, 5)
        };
        for _ in 0..equations {
            self.enter();
        }
        for _ in 0..self.random.between(5, 40) {
            let settled = self.session.register().is_settled();
            if settled == self.random.percent(90) {
                self.call_on_settled();
            } else {
                self.call_on_open();
            }
        }
    }

    /// A call that an open register is likely to answer.
    fn call_on_open(&mut self) {
        match self.random.below(20) {
            0 => self.enter(),
            1..=8 => self.settle(),
            9..=14 => self.adopt(),
            15 | 16 => self.replay(),
            _ => self.call_on_any(),
        }
    }

    /// A call that a settled register is likely to answer.
    fn call_on_settled(&mut self) {
        match self.random.below(20) {
            0..=3 => {
                self.call("reopen");
            }
            4..=6 => self.standard(),
            7..=10 => self.match_loads(),
            11..=13 => self.replay(),
            14 => self.write(),
            15 => self.hand_over(),
            _ => self.call_on_any(),
        }
    }

    fn call_on_any(&mut self) {
        match self.random.below(8) {
            0 => {
                self.call("table");
            }
            1 => {
                self.call("lines");
            }
            2 => {
                let quiet: [&[u8]; 3] = [b"", b"#", b"# settle report 5 5"];
                let line = *self.random.pick(&quiet);
                self.line(line);
            }
            3 => self.misspelt(),
            _ => self.examine(),
        }
    }
}

fn hex(bytes: &[u8]) -> String {
    if bytes.is_empty() {
        return "-".into();
    }
    bytes.iter().map(|byte| format!("{byte:02x}")).collect()
}

fn main() -> Result<(), Box<dyn Error>> {
    let mut arguments = std::env::args().skip(1);
    let usage = "usage: random SEED [CALL,CALL,..]";
    let seed: u64 = arguments.next().ok_or(usage)?.parse().map_err(|_| usage)?;
    let list = arguments.next();
    let calls = match &list {
        Some(list) => list.split(',').collect(),
        None => CALLS.to_vec(),
    };
    let mut script = Script {
        random: Random(seed.wrapping_mul(0x2545_f491_4f6c_dd1d)),
        calls,
        session: Session::new(),
        text: Vec::new(),
        articles: Vec::new(),
        most: 1,
        files: Vec::new(),
    };
    for _ in 0..script.random.between(1, 6) {
        script.register();
    }
    if script.random.percent(10) {
        script.text.pop();
    }
    std::io::stdout().write_all(&script.text)?;
    Ok(())
}
