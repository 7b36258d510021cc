//! A filter: text rows on standard input become a sheet on standard output, or with -r a sheet becomes text rows. A refusal is told
//! on standard error; nothing is written then, and the status is 1.
#![forbid(unsafe_code)]

use std::env;
use std::error::Error;
use std::io::{self, Read, Write};
use std::process::ExitCode;

use yeldmur::Sheet;

fn converted(input: Vec<u8>, back: bool) -> Result<Vec<u8>, yeldmur::Refusal> {
    if back {
        Sheet::read(input)?.to_rows()
    } else {
        Ok(Sheet::from_rows(&input)?.into_bytes())
    }
}

fn filter(back: bool) -> Result<(), Box<dyn Error>> {
    let mut input = Vec::new();
    io::stdin().lock().read_to_end(&mut input)?;
    io::stdout().lock().write_all(&converted(input, back)?)?;
    Ok(())
}

fn main() -> ExitCode {
    let arguments: Vec<String> = env::args().skip(1).collect();
    let back = match arguments.iter().map(String::as_str).collect::<Vec<_>>()[..] {
        [] => false,
        ["-r"] => true,
        _ => {
            eprintln!("usage: rows < text > sheet, or rows -r < sheet > text");
            return ExitCode::from(2);
        }
    };
    match filter(back) {
        Ok(()) => ExitCode::SUCCESS,
        Err(error) => {
            eprintln!("rows: {error}");
            ExitCode::FAILURE
        }
    }
}
