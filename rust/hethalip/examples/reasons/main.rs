//! Why a game is stuck, one line for each rule: `cargo run -p hethalip --example reasons`.
//!
//! ```text
//! reasons          a game of its own, which has each kind of reason
//! reasons FILE     the game whose table is the file's first line and whose configuration is the
//!                  second, as the command line program takes them
//! ```

mod file;
mod game;
mod report;
mod rules;
mod term;
#[cfg(test)]
mod tests;

use std::env;
use std::ffi::OsString;
use std::process::ExitCode;
use term::Names;

/// What `--help` prints.
const HELP: &str = "\
Says why a game is stuck: a line for each rule, with the node at which its left differs from the
configuration, or the first condition that fails.

usage: reasons           a game of its own, which has each kind of reason
       reasons FILE      the game whose table is the file's first line and whose configuration is
                         the second, as the command line program takes them (docs/FORMAT.md)
       reasons --help    this text

From the folder rust: cargo run -p hethalip --example reasons -- ../examples/spin.txt

It ends with 0 if it could say it, of a game that is not stuck too, and with 1 if the file cannot be
read or is no game.
";

fn main() -> ExitCode {
    let arguments: Vec<OsString> = env::args_os().skip(1).collect();
    match answer(&arguments) {
        Ok(text) => {
            print!("{text}");
            ExitCode::SUCCESS
        }
        Err(text) => {
            eprintln!("{text}");
            ExitCode::FAILURE
        }
    }
}

/// What the program prints, or what is wrong and what to do about it.
fn answer(arguments: &[OsString]) -> Result<String, String> {
    match arguments {
        [] => report::report(&game::TABLE, &game::CONFIGURATION, game::NAMES)
            .map_err(|refusal| refusal.to_string()),
        [flag] if flag == "--help" || flag == "-h" => Ok(HELP.to_string()),
        [name] => {
            let name = name.to_string_lossy();
            let game = file::read(&name)?;
            report::report(&game.table, &game.configuration, Names(&[]))
                .map_err(|refusal| format!("{name}: {refusal}"))
        }
        _ => Err("give no argument, or one file: reasons [FILE] (--help says more)".to_string()),
    }
}
