//! Checks the show on standard input.
use std::io::{Read, Write};
use std::process::ExitCode;

fn main() -> ExitCode {
    let mut show = Vec::new();
    if std::io::stdin().read_to_end(&mut show).is_err() {
        return ExitCode::from(70);
    }
    let verdict = hemtoghai::run("check", &show);
    if std::io::stdout().write_all(&verdict.output).is_err() {
        return ExitCode::from(70);
    }
    ExitCode::from(verdict.status)
}
