//! The store as a member's service.

use crate::http;
use crate::machine::Limits;
use crate::store::{Clients, Store};
use hyper::{Body, Request};
use std::sync::Arc;
use voumlisd::http::{Answer, Told};
use voumlisd::{Routes, Service};

/// The store's paths on a member's address.
struct Served(Clients);

impl Routes for Served {
    fn answer(&self, request: Request<Body>, _: &Told) -> Result<Answer, Box<Request<Body>>> {
        if !http::has(request.uri().path()) {
            return Err(Box::new(request));
        }
        let clients = self.0.clone();
        Ok(Box::pin(
            async move { http::answer(&clients, request).await },
        ))
    }
}

/// An empty store, with what it answers over HTTP.
pub fn service(limits: Limits) -> Service {
    let store = Store::new(limits);
    let served = Served(store.clients());
    Service::new(store).with_routes(Arc::new(served))
}
