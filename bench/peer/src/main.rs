//! Runs a script from standard input and prints what each call did.

use peer::script::Session;
use std::io::{self, ErrorKind, Read, Write};
use std::process::ExitCode;

/// Reads the script to its end. What was answered is printed before the next block is read.
fn run() -> io::Result<bool> {
    let mut input = io::stdin().lock();
    let mut output = io::stdout().lock();
    let mut session = Session::new();
    let mut block = vec![0; 65536];
    let mut out = String::new();
    loop {
        let count = match input.read(&mut block) {
            Ok(0) => break,
            Ok(count) => count,
            Err(error) if error.kind() == ErrorKind::Interrupted => continue,
            Err(error) => return Err(error),
        };
        session.feed(&block[..count], &mut out);
        output.write_all(out.as_bytes())?;
        output.flush()?;
        out.clear();
    }
    session.finish(&mut out);
    output.write_all(out.as_bytes())?;
    output.flush()?;
    Ok(session.all_understood())
}

fn main() -> ExitCode {
    match run() {
        Ok(true) => ExitCode::SUCCESS,
        Ok(false) => ExitCode::FAILURE,
        Err(error) => {
            eprintln!("peer: {error}");
            ExitCode::FAILURE
        }
    }
}
