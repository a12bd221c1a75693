//! A member whose application fails where it is asked over HTTP: for tests.

use application::{Application, Block, BlockId, Context, RestoreError};
use hyper::{Body, Request};
use std::sync::Arc;
use voumlisd::http::{Answer, Told};
use voumlisd::{Routes, Service, command_line};

struct Nothing;

impl Application for Nothing {
    fn build(&mut self, _: &Context, _: &[Block]) -> Option<Vec<u8>> {
        None
    }

    fn verify(&mut self, _: &Context, _: &[Block], _: &[u8]) -> bool {
        true
    }

    fn finalized(&mut self, _: &Block) {}

    fn snapshot(&self) -> Vec<u8> {
        Vec::new()
    }

    fn restore(&mut self, _: &BlockId, _: &[u8]) -> Result<(), RestoreError> {
        Ok(())
    }
}

struct Failing;

impl Routes for Failing {
    fn answer(&self, request: Request<Body>, _: &Told) -> Result<Answer, Box<Request<Body>>> {
        match request.uri().path() {
            "/fail" => panic!("it fails, as it was asked to"),
            _ => Err(Box::new(request)),
        }
    }
}

fn main() -> std::process::ExitCode {
    command_line(|_| Ok(Service::new(Nothing).with_routes(Arc::new(Failing))))
}
