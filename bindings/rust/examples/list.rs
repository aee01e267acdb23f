//! Prints the listing of a block: `cargo run --example list -- FILE`.

use std::env;
use std::fs;
use std::process::ExitCode;

fn main() -> ExitCode {
    let Some(path) = env::args_os().nth(1) else {
        eprintln!("use: list FILE");
        return ExitCode::FAILURE;
    };
    match fs::read(&path) {
        Ok(block) => {
            print!("{}", rasclanya::listing(&block));
            ExitCode::SUCCESS
        }
        Err(error) => {
            eprintln!("{}: {error}", path.to_string_lossy());
            ExitCode::FAILURE
        }
    }
}
