//! What the command was asked to do.

const ROUNDS: usize = 15;

pub struct Arguments {
    /// Hold the ratios to their bounds.
    pub check: bool,
    /// Write docs/speed.md and docs/speed.svg.
    pub write: bool,
    pub rounds: usize,
}

impl Arguments {
    pub fn read(words: impl Iterator<Item = String>) -> Result<Arguments, String> {
        let mut arguments = Arguments {
            check: false,
            write: false,
            rounds: ROUNDS,
        };
        for word in words {
            match word.as_str() {
                "--check" => arguments.check = true,
                "--write" => arguments.write = true,
                _ => arguments.rounds = rounds(&word)?,
            }
        }
        Ok(arguments)
    }
}

fn rounds(word: &str) -> Result<usize, String> {
    match word.parse() {
        Ok(rounds) if rounds > 0 => Ok(rounds),
        _ => Err(format!(
            "{word}? arguments: [--check] [--write] [ROUNDS], ROUNDS at least 1"
        )),
    }
}
