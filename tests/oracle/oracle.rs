//! The Rust as the judge: reads questions on standard input, one a line (a name of `questions::NAMES`, then decimal numbers:
//! 32-bit words, or bytes where the question takes bytes), and writes a line of decimal words for each, `-` for no answer.
use std::io::{BufRead, Write};

fn asked(line: &str) -> Option<(usize, Vec<u8>)> {
    let mut words = line.split_whitespace();
    let name = words.next()?;
    let question = questions::NAMES.iter().position(|other| *other == name)?;
    let input = if questions::takes_bytes(question) {
        words.map(|word| word.parse().ok()).collect::<Option<Vec<u8>>>()?
    } else {
        questions::bytes_of(&words.map(|word| word.parse().ok()).collect::<Option<Vec<u32>>>()?)
    };
    Some((question, input))
}

fn main() {
    let mut out = std::io::BufWriter::new(std::io::stdout().lock());
    for line in std::io::stdin().lock().lines() {
        let line = line.unwrap();
        let Some((question, input)) = asked(&line) else {
            writeln!(out, "not a question: {line}").unwrap();
            continue;
        };
        let words: Vec<String> = questions::answer(question, &input).iter().map(u32::to_string).collect();
        writeln!(out, "{}", if words.is_empty() { "-".to_string() } else { words.join(" ") }).unwrap();
    }
}
