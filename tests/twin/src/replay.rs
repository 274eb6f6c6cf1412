//! Recorded calls made once more to the library and to a changed twin: the first that differs is named.

#[allow(dead_code)]
mod call;
#[allow(dead_code)]
mod compare;
#[allow(dead_code)]
mod paper;
#[allow(dead_code)]
mod random;
#[allow(dead_code)]
mod records;

use std::io::BufRead;
use std::process::ExitCode;

/// 1 where a call differs, 0 where none does, 2 where the calls cannot be read.
fn main() -> ExitCode {
    let mut words = std::env::args().skip(1);
    let (Some(path), None) = (words.next(), words.next()) else {
        eprintln!("usage: replay FILE");
        return ExitCode::from(2);
    };
    match first_difference(&path) {
        Ok(Some(number)) => {
            println!("call {number} differs");
            ExitCode::from(1)
        }
        Ok(None) => {
            println!("no call differs");
            ExitCode::SUCCESS
        }
        Err(message) => {
            eprintln!("replay: {path}: {message}");
            ExitCode::from(2)
        }
    }
}

fn first_difference(path: &str) -> Result<Option<usize>, String> {
    let file = std::fs::File::open(path).map_err(|error| error.to_string())?;
    for (number, line) in std::io::BufReader::new(file).lines().enumerate() {
        let line = line.map_err(|error| error.to_string())?;
        let words: Vec<&str> = line.split(' ').collect();
        let (library, twin) = compare::both(&call::parse(&words)?);
        if library != twin {
            return Ok(Some(number));
        }
    }
    Ok(None)
}
