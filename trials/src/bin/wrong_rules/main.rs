//! Tries wrong definitions of the rules: small changes of the text of specs/, each for itself. A case of the table must
//! refuse each one.
//!
//!     wrong_rules [--crate DIR] [--jobs N] [--list] [--all] [FILE[:DEFINITION]...]
//!
//! trials/wrong_rules starts it, and says what the words mean. WRONG_RULES_ROOT names the repository, WRONG_RULES_WORK
//! a folder for the copies that are checked; the one who starts it removes that folder.
//!
//! A change keeps the types, so that nearly every one is a definition. For this the files are parsed and their types
//! inferred, as far as the rules need it: no implicit arguments, no lambdas. Comments, types and patterns stay. So do the
//! statements: definitions that give a type, and data and records that take something.
//!
//! Not every change of a kind is tried. For a name there are the nearest others of its type, three for a test and two
//! for anything else; for a field its two neighbours, and one where a record keeps the field; for a constant the
//! nearest one below and above, and the nearest numbers. Left out is what another change says too, and the order of a
//! list of tests, which says nothing.

#![forbid(unsafe_code)]

mod arguments;
mod changes;
mod checks;
mod expressions;
mod files;
mod rules;
mod run;
mod text;
mod types;
mod typing;

use arguments::arguments;
use run::run;
use std::process::ExitCode;

const USAGE: &str = "trials/wrong_rules [--crate DIR] [--jobs N] [--list] [--all] [FILE[:DEFINITION]...]";

fn main() -> ExitCode {
    let Some(arguments) = arguments() else {
        eprintln!("{USAGE}");
        return ExitCode::from(2);
    };
    match run(&arguments) {
        Ok(true) => ExitCode::SUCCESS,
        Ok(false) => ExitCode::FAILURE,
        Err(error) => {
            eprintln!("wrong_rules: {error}");
            ExitCode::from(2)
        }
    }
}
