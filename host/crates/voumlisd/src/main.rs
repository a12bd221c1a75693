//! A member whose application answers over HTTP, or, where its settings name none, orders nothing: for a look at a committee.

use std::process::ExitCode;
use voumlisd::{Counting, Service, command_line, remote};

fn main() -> ExitCode {
    command_line(|settings| match settings.application {
        Some(address) => remote::service(address),
        None => Ok(Service::new(Counting::default())),
    })
}
