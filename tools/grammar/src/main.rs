//! The command `grammar`: docs/GRAMMARS.md describes it.
use std::process::ExitCode;

fn main() -> ExitCode {
    grammar::cli::main(std::env::args_os().skip(1).collect())
}
