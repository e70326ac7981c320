//! The bench program over the model: operations on standard input, answers on
//! standard output, flushed when no more input is at hand.
//!
//! With `MODEL_BROKEN` in its environment it is broken on purpose, to try out
//! the comparison: a homing that goes away from the flag under `F1` answers
//! the wrong direction.

use std::io::{self, BufRead, BufReader, BufWriter, Write};

use drive_model::bench::Bench;

fn main() -> io::Result<()> {
    let broken = std::env::var_os("MODEL_BROKEN").is_some();
    let mut input = BufReader::with_capacity(1 << 16, io::stdin().lock());
    let mut output = BufWriter::with_capacity(1 << 16, io::stdout().lock());
    let mut bench = Bench::new();
    let mut line = Vec::new();
    let mut answer = Vec::new();
    loop {
        line.clear();
        if input.read_until(b'\n', &mut line)? == 0 {
            return output.flush();
        }
        answer.clear();
        bench.answer(line.strip_suffix(b"\n").unwrap_or(&line), &mut answer);
        if broken && answer == b"act down 10000" {
            answer = b"act up 10000".to_vec();
        }
        answer.push(b'\n');
        output.write_all(&answer)?;
        if input.buffer().is_empty() {
            output.flush()?;
        }
    }
}
