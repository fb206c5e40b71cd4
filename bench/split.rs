//! Reads standard input in pieces of 4,096 bytes, and splits it into lines and words. With the word
//! `answer` it also writes a line for each line that isn't empty, each by itself.

use std::io::{self, Read, Write};

fn main() {
    let answers = std::env::args().nth(1).as_deref() == Some("answer");
    let mut text = Vec::new();
    let mut piece = [0u8; 4096];
    let mut input = io::stdin().lock();
    loop {
        let count = input.read(&mut piece).expect("standard input fails");
        if count == 0 {
            break;
        }
        text.extend_from_slice(&piece[..count]);
    }
    let mut output = io::stdout().lock();
    let (mut lines, mut words) = (0u64, 0usize);
    for line in text.split(|b| *b == b'\n') {
        lines += 1;
        words += line.split(|b| *b == b' ' || *b == b'\t').filter(|word| !word.is_empty()).count();
        if answers && !line.is_empty() {
            writeln!(output, "refused {lines} BadLine").expect("standard output fails");
        }
    }
    eprintln!("{lines} lines, {words} words");
}
