//! Plays a tape through the model and prints its lines: `tape FILE`, or from standard input.
mod kernel;

use kernel::kinds::read_call;
use kernel::Kernel;
use std::io::{self, Read, Write};

/// "For each call one line: answer, a space, the running task's number or `-`. An unknown kind or a cut
/// body prints `bad` and ends."
fn play(mut tape: &[u8]) -> String {
    let mut kernel = Kernel::fresh();
    let mut lines = String::new();
    while !tape.is_empty() {
        let (call, rest) = match read_call(tape) {
            Some(next) => next,
            None => return lines + "bad\n",
        };
        let outcome = kernel.step(call);
        assert!(kernel.sound(), "the model left an unsound table after {call:X?}");
        let runs = outcome.runs.map_or("-".to_string(), |t| t.to_string());
        lines.push_str(&format!("{} {runs}\n", outcome.answer));
        tape = rest;
    }
    lines
}

fn main() -> io::Result<()> {
    let mut tape = Vec::new();
    match std::env::args().nth(1) {
        Some(file) => tape = std::fs::read(file)?,
        None => {
            io::stdin().read_to_end(&mut tape)?;
        }
    }
    io::stdout().write_all(play(&tape).as_bytes())
}
