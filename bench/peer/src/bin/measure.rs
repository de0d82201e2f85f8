//! Times the verified program and the peer on the same scripts, in turns, and prints the ratios.
//! Usage: measure SWAPS PEER [REPETITIONS]

use peer::script::Session;
use std::error::Error;
use std::fs::{self, File};
use std::path::{Path, PathBuf};
use std::process::{Command, Stdio};
use std::time::Instant;

/// How long a run of the peer should take.
const AIM: f64 = 1.0;

const BOOK: &str = "\
enter a2b4c5d3 = ab3c2d2
enter a8bc3d4 = ab8c4d2
enter a2b2c2d2 = c2d
enter ab8c3 = b2d3
enter a7d7 = c8
";

/// A script: a head, and calls that are repeated until a run is long enough.
struct Case {
    name: &'static str,
    what: &'static str,
    head: String,
    calls: Vec<String>,
    /// The call whose time is told.
    counted: &'static str,
}

impl Case {
    fn script(&self, times: usize) -> String {
        let calls: String = self.calls.iter().map(|call| format!("{call}\n")).collect();
        self.head.clone() + &calls.repeat(times)
    }

    fn counted(&self, times: usize) -> usize {
        times
            * self
                .calls
                .iter()
                .filter(|call| call.starts_with(self.counted))
                .count()
    }
}

/// A book over all eight articles that settles with many rules.
const WIDE: &str = "\
enter c = eg
enter b2de = c2e2f2h
enter cef = b2de2h
enter h = d2g2
enter e = d2eg2h2
enter a2f2g2 = a
";

const SETTLE: &str = "settle report 128 4219";
const SETTLE_WIDE: &str = "settle report 128 184290";

/// The file of the five-equation book, in hexadecimal, made by the peer.
fn file_of_book() -> String {
    let mut session = Session::new();
    session.feed(format!("{BOOK}{SETTLE}\n").as_bytes(), &mut String::new());
    let mut bytes = Vec::new();
    if session.register().write(&mut bytes, 40_000).is_err() {
        bytes.clear();
    }
    bytes.iter().map(|byte| format!("{byte:02x}")).collect()
}

fn cases() -> Vec<Case> {
    let lines = |lines: &[&str]| lines.iter().map(|line| line.to_string()).collect();
    vec![
        Case {
            name: "settle",
            what: "the five-equation book under report settled (4,219 steps, 90 lines) and reopened",
            head: BOOK.into(),
            calls: lines(&[SETTLE, "reopen"]),
            counted: "settle",
        },
        Case {
            name: "wide",
            what: "a book over eight articles under report settled (123 rules, 184,290 steps) and reopened",
            head: WIDE.into(),
            calls: lines(&[SETTLE_WIDE, "reopen"]),
            counted: "settle",
        },
        Case {
            name: "standard",
            what: "big loads reduced by the nine rules of the five-equation book (60,000 to 240,000 steps)",
            head: format!("{BOOK}{SETTLE}\n"),
            calls: lines(&[
                "standard a60000b60000c60000d60000 4294967295",
                "standard a65535b30000c2d 4294967295",
                "standard a5000b40000c60000 4294967295",
                "standard a30000d30000 4294967295",
                "standard b40000d40000 4294967295",
            ]),
            counted: "standard",
        },
        Case {
            name: "search",
            what: "big loads reduced by the 123 rules of the wide book (200 to 17,000 steps)",
            head: format!("{WIDE}{SETTLE_WIDE}\n"),
            calls: lines(&[
                "standard a60b60c60d60e60f60g60h60 4294967295",
                "standard d9999e9999g9999 4294967295",
                "standard b9000d500e20f7000g9000 4294967295",
                "standard a5000f5000g5000 4294967295",
                "standard c3000h3000 4294967295",
            ]),
            counted: "standard",
        },
        Case {
            name: "match",
            what: "small loads of the five-equation book matched: equal with their chains, and different",
            head: format!("{BOOK}{SETTLE}\n"),
            calls: lines(&[
                "match a20b30c20d10 c2d 4000 100000",
                "match a9b9c9d9 a5b2c30d2 4000 100000",
                "match ab8c3d4 b2d7 4000 100000",
                "match a40c2d b40c2d 4000 100000",
                "match a7d7e5 b8c8 4000 100000",
                "match c40 b2c8 4000 100000",
                "match abcd abce 4000 100000",
            ]),
            counted: "match",
        },
        Case {
            name: "adopt",
            what: "the file of the five-equation book (9 rules, 85 added lines) adopted and reopened",
            head: BOOK.into(),
            calls: vec![
                format!("adopt report 4294967295 {}", file_of_book()),
                "reopen".into(),
            ],
            counted: "adopt",
        },
        Case {
            name: "replay",
            what: "chains of 2,000 numbers read and followed, forward and backward",
            head: BOOK.into(),
            calls: vec![format!(
                "replay a99b99c99d99{}",
                " 1 3 -3 2 -2 -1 4 5 -5 -4".repeat(200)
            )],
            counted: "replay",
        },
    ]
}

/// The two programs and the folder for scripts and answers.
struct Bench {
    swaps: PathBuf,
    peer: PathBuf,
    folder: PathBuf,
    repetitions: usize,
}

/// The best and the median of some times.
struct Times(Vec<f64>);

impl Times {
    fn best(&self) -> f64 {
        self.0.iter().copied().fold(f64::INFINITY, f64::min)
    }

    fn median(&self) -> f64 {
        let mut sorted = self.0.clone();
        sorted.sort_by(f64::total_cmp);
        sorted[sorted.len() / 2]
    }
}

impl Bench {
    /// Runs a program on a script, from its start to its end, with its answers in a file.
    fn time(&self, program: &Path, script: &Path, answers: &Path) -> Result<f64, Box<dyn Error>> {
        let mut command = Command::new(program);
        command
            .stdin(File::open(script)?)
            .stdout(File::create(answers)?)
            .stderr(Stdio::null());
        let start = Instant::now();
        command.status()?;
        Ok(start.elapsed().as_secs_f64())
    }

    /// How often the calls are to be repeated so that the peer takes about as long as is aimed at.
    fn calibrate(&self, case: &Case) -> Result<usize, Box<dyn Error>> {
        let script = self.folder.join("script");
        let answers = self.folder.join("peer.answers");
        let mut times = 1;
        loop {
            fs::write(&script, case.script(times))?;
            let taken = self.time(&self.peer, &script, &answers)?;
            if taken > AIM / 10.0 {
                return Ok((times as f64 * AIM / taken).ceil() as usize);
            }
            times *= 4;
        }
    }

    /// Whether the verified program understands all calls of a case.
    fn is_understood(&self, case: &Case) -> Result<bool, Box<dyn Error>> {
        let script = self.folder.join("script");
        let answers = self.folder.join("swaps.answers");
        fs::write(&script, case.script(1))?;
        self.time(&self.swaps, &script, &answers)?;
        Ok(!fs::read_to_string(&answers)?.contains("not understood"))
    }

    /// Measures a case and prints its row. Gives whether the answers agreed.
    fn run(&self, case: &Case) -> Result<bool, Box<dyn Error>> {
        if !self.is_understood(case)? {
            println!(
                "{:<10}skipped: swaps does not understand these calls yet",
                case.name
            );
            return Ok(true);
        }
        let times = self.calibrate(case)?;
        let script = self.folder.join("script");
        fs::write(&script, case.script(times))?;
        let answers = [
            self.folder.join("swaps.answers"),
            self.folder.join("peer.answers"),
        ];
        let mut measured = [Times(Vec::new()), Times(Vec::new())];
        for _ in 0..self.repetitions {
            for (k, program) in [&self.swaps, &self.peer].into_iter().enumerate() {
                let taken = self.time(program, &script, &answers[k])?;
                measured[k].0.push(taken);
            }
        }
        let agreed = fs::read(&answers[0])? == fs::read(&answers[1])?;
        let [swaps, peer] = measured;
        let calls = case.counted(times);
        println!(
            "{:<10}{:>8}{:>10.3} s{:>10.3} s{:>12}{:>12}{:>9.2}{:>9.2}   {}",
            case.name,
            calls,
            swaps.best(),
            peer.best(),
            per_call(swaps.best(), calls),
            per_call(peer.best(), calls),
            swaps.best() / peer.best(),
            swaps.median() / peer.median(),
            if agreed { "agree" } else { "DIFFER" },
        );
        Ok(agreed)
    }
}

fn per_call(seconds: f64, calls: usize) -> String {
    format!("{:.1} µs", seconds / calls as f64 * 1e6)
}

fn measure(swaps: PathBuf, peer: PathBuf, repetitions: usize) -> Result<bool, Box<dyn Error>> {
    let folder = std::env::temp_dir().join(format!("swaps-bench-{}", std::process::id()));
    fs::create_dir_all(&folder)?;
    let bench = Bench {
        swaps,
        peer,
        folder,
        repetitions,
    };
    println!("Wall time of whole processes on the same script, {repetitions} runs each, in turns.");
    println!(
        "best: the fastest run of each; ratio: swaps / peer; calls: of the kind the row names."
    );
    println!();
    println!(
        "{:<10}{:>8}{:>12}{:>12}{:>12}{:>12}{:>9}{:>9}   answers",
        "case", "calls", "swaps best", "peer best", "swaps/call", "peer/call", "ratio", "(median)"
    );
    let mut agreed = true;
    let cases = cases();
    for case in &cases {
        agreed &= bench.run(case)?;
    }
    println!();
    for case in &cases {
        println!("{:<10}{}", case.name, case.what);
    }
    println!();
    if agreed {
        println!("All answers that were compared agree.");
    } else {
        println!("SOME ANSWERS DIFFER: see bench/compare.");
    }
    fs::remove_dir_all(&bench.folder)?;
    Ok(agreed)
}

fn main() -> Result<(), Box<dyn Error>> {
    let mut arguments = std::env::args_os().skip(1);
    let (Some(swaps), Some(peer)) = (arguments.next(), arguments.next()) else {
        return Err("usage: measure SWAPS PEER [REPETITIONS]".into());
    };
    let repetitions = match arguments.next() {
        Some(word) => word
            .to_string_lossy()
            .parse()
            .map_err(|_| "REPETITIONS is a number")?,
        None => 5,
    };
    if !measure(swaps.into(), peer.into(), std::cmp::max(1, repetitions))? {
        std::process::exit(1);
    }
    Ok(())
}
