//! A member of a committee with the replicated store on it: `kv init`, `kv run` and what else `voumlisd` does.

use kv::machine::Limits;
use std::process::ExitCode;

fn main() -> ExitCode {
    voumlisd::command_line(|_| Ok(kv::service(Limits::default())))
}
