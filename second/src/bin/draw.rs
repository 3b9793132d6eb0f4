//! Makes a drawing from text: reads the text on standard input, as `second::testing::text` has it, and writes the
//! drawing's bytes.
use second::testing::{text, writer};
use std::io::{self, Read, Write};
use std::process::ExitCode;

fn main() -> ExitCode {
    let mut said = String::new();
    if let Err(fault) = io::stdin().read_to_string(&mut said) {
        eprintln!("draw: {fault}");
        return ExitCode::FAILURE;
    }
    let written = match text::parse(&said) {
        Ok(drawing) => io::stdout().write_all(&writer::bytes(&drawing)).map_err(|fault| fault.to_string()),
        Err(fault) => Err(fault),
    };
    match written {
        Ok(()) => ExitCode::SUCCESS,
        Err(fault) => {
            eprintln!("draw: {fault}");
            ExitCode::FAILURE
        }
    }
}
