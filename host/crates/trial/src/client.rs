//! A client of the store, which knows that an answer that doesn't come says nothing.

use crate::acknowledged::{Version, Versions};
use crate::chains::Link;
use crate::history::{Operation, Told};
use anyhow::{Context, Result, bail};
use hyper::client::HttpConnector;
use hyper::{Body, Client, Method, Request, StatusCode};
use serde::Deserialize;
use serde::de::DeserializeOwned;
use serde_json::json;
use std::net::SocketAddr;
use std::time::Duration;

/// What an attempt came to.
#[derive(Clone, Debug, PartialEq, Eq)]
pub enum Attempt {
    /// It was carried out, in the block of this view.
    Done(Told, u64),
    /// It isn't carried out for this attempt, nor will be.
    Refused,
    /// It isn't carried out, and no attempt of this request was or will be.
    Never,
    /// Nobody knows.
    Unknown,
}

/// Connections to all members.
#[derive(Clone, Debug)]
pub struct Connections {
    http: Client<HttpConnector>,
}

/// A request under a client's name and number.
#[derive(Clone, Debug)]
pub struct Numbered<'a> {
    /// The client's name, in hexadecimal digits.
    pub client: &'a str,
    /// Which of its requests.
    pub number: u64,
    /// About which key.
    pub key: &'a str,
    /// What is asked.
    pub operation: &'a Operation,
}

impl Default for Connections {
    fn default() -> Connections {
        let mut connector = HttpConnector::new();
        connector.set_connect_timeout(Some(Duration::from_secs(1)));
        connector.set_nodelay(true);
        Connections {
            http: Client::builder()
                .pool_max_idle_per_host(64)
                .build(connector),
        }
    }
}

#[derive(Deserialize)]
struct Outcome {
    outcome: String,
    view: Option<u64>,
}

#[derive(Deserialize)]
struct ToldHistory {
    forgotten: bool,
    versions: Vec<ToldVersion>,
}

#[derive(Deserialize)]
struct ToldVersion {
    view: u64,
    position: u16,
    hex: Option<String>,
    text: Option<String>,
}

impl Connections {
    /// Sends a request to one member, which has so long for its answer.
    pub async fn attempt(
        &self,
        member: SocketAddr,
        asked: &Numbered<'_>,
        within: Duration,
    ) -> Attempt {
        let request = match request(member, asked, within) {
            Ok(request) => request,
            Err(_) => return Attempt::Never,
        };
        // The member has to be slower than it may be before it is given up.
        let patience = within + Duration::from_millis(500);
        let asking = async {
            let response = self.http.request(request).await?;
            let view = response.headers().get("voumlis-view");
            let view = view.and_then(|view| view.to_str().ok()?.parse().ok());
            let status = response.status();
            Ok((
                status,
                view,
                hyper::body::to_bytes(response.into_body()).await?,
            ))
        };
        match tokio::time::timeout(patience, asking).await {
            Ok(Ok((status, view, body))) => read_answer(asked.operation, status, view, &body),
            Ok(Err(error)) => of_error(&error),
            Err(_) => Attempt::Unknown,
        }
    }

    /// What a member answers to a reading request, as JSON.
    ///
    /// # Errors
    ///
    /// Where no answer comes in time, or it is none.
    pub async fn get_json<T: DeserializeOwned>(
        &self,
        member: SocketAddr,
        path: &str,
        within: Duration,
    ) -> Result<T> {
        let address = format!("http://{member}{path}");
        let asking = async {
            let response = self.http.get(address.parse()?).await?;
            let status = response.status();
            let body = hyper::body::to_bytes(response.into_body()).await?;
            if status != StatusCode::OK {
                bail!("{status}: {}", String::from_utf8_lossy(&body));
            }
            Ok(serde_json::from_slice(&body)?)
        };
        let answered = tokio::time::timeout(within, asking).await;
        answered
            .context("no answer in time")
            .and_then(|told| told)
            .with_context(|| address.clone())
    }

    /// The versions of a key that a member keeps, once it has carried out the block of this view.
    ///
    /// # Errors
    ///
    /// As of [`Connections::get_json`].
    pub async fn versions(
        &self,
        member: SocketAddr,
        key: &str,
        after: u64,
        within: Duration,
    ) -> Result<Versions> {
        let path = format!("/history/{key}?after={after}&within={}", within.as_millis());
        let told: ToldHistory = self
            .get_json(member, &path, within + Duration::from_secs(1))
            .await?;
        let version = |version: ToldVersion| {
            let value = version.text.or(version.hex);
            Version {
                view: version.view,
                position: version.position,
                value,
            }
        };
        let versions = told.versions.into_iter().map(version).collect();
        Ok(Versions {
            forgotten: told.forgotten,
            versions,
        })
    }

    /// What a key has in a member's state, and the view of that state.
    ///
    /// # Errors
    ///
    /// Where no answer comes in time, or it is none.
    pub async fn read_local(
        &self,
        member: SocketAddr,
        key: &str,
        within: Duration,
    ) -> Result<(u64, Option<String>)> {
        let address = format!("http://{member}/keys/{key}?local").parse()?;
        let asking = async {
            let response = self.http.get(address).await?;
            let status = response.status();
            let header = |name: &str| {
                response
                    .headers()
                    .get(name)
                    .and_then(|value| value.to_str().ok())
            };
            let (view, how) = (
                header("voumlis-view").map(str::parse),
                header("voumlis-read"),
            );
            let (Some(view), Some("local")) = (view.transpose()?, how) else {
                bail!("{status}")
            };
            let body = hyper::body::to_bytes(response.into_body()).await?;
            let value = String::from_utf8_lossy(&body).into_owned();
            Ok((view, (status == StatusCode::OK).then_some(value)))
        };
        tokio::time::timeout(within, asking)
            .await
            .context("no answer in time")?
    }

    /// The last blocks that a member carried out.
    ///
    /// # Errors
    ///
    /// As of [`Connections::get_json`].
    pub async fn chain(&self, member: SocketAddr, within: Duration) -> Result<Vec<Link>> {
        self.get_json(member, "/chain", within).await
    }
}

fn request(member: SocketAddr, asked: &Numbered<'_>, within: Duration) -> Result<Request<Body>> {
    let (method, body) = match asked.operation {
        Operation::Get => (Method::GET, Body::empty()),
        Operation::Put(value) => (Method::PUT, value.clone().into()),
        Operation::Delete => (Method::DELETE, Body::empty()),
        Operation::CompareAndSet(expected, new) => (
            Method::POST,
            json!({ "expected": expected, "new": new })
                .to_string()
                .into(),
        ),
    };
    let path = format!(
        "http://{member}/keys/{}?within={}",
        asked.key,
        within.as_millis()
    );
    Ok(Request::builder()
        .method(method)
        .uri(path)
        .header("content-type", "application/json")
        .header("voumlis-client", asked.client)
        .header("voumlis-number", asked.number)
        .body(body)?)
}

/// An attempt that wasn't answered: if there was no connection it wasn't sent.
fn of_error(error: &hyper::Error) -> Attempt {
    if error.is_connect() {
        Attempt::Refused
    } else {
        Attempt::Unknown
    }
}

fn read_answer(
    operation: &Operation,
    status: StatusCode,
    view: Option<u64>,
    body: &[u8],
) -> Attempt {
    if *operation == Operation::Get
        && let (StatusCode::OK | StatusCode::NOT_FOUND, Some(view)) = (status, view)
    {
        let value = String::from_utf8_lossy(body).into_owned();
        return Attempt::Done(
            Told::Read((status == StatusCode::OK).then_some(value)),
            view,
        );
    }
    let Ok(Outcome { outcome, view }) = serde_json::from_slice(body) else {
        return Attempt::Unknown;
    };
    match (outcome.as_str(), view) {
        ("written", Some(view)) => Attempt::Done(Told::Written, view),
        ("mismatch", Some(view)) => Attempt::Done(Told::Mismatch, view),
        ("full" | "conflict", _) => Attempt::Never,
        ("crowded", _) => Attempt::Refused,
        // `busy`, `superseded` and `unknown_client` don't come where a client has one request under
        // way; whatever else comes, nothing is known.
        _ => Attempt::Unknown,
    }
}

#[cfg(test)]
mod tests {
    use super::*;

    #[test]
    fn only_a_clear_answer_is_one() {
        let put = Operation::Put("x".to_owned());
        let read = |operation: &Operation, status: u16, view, body: &str| {
            read_answer(
                operation,
                StatusCode::from_u16(status).unwrap(),
                view,
                body.as_bytes(),
            )
        };
        let done = |told, view| Attempt::Done(told, view);
        assert_eq!(
            read(&put, 200, None, r#"{"outcome":"written","view":7}"#),
            done(Told::Written, 7)
        );
        assert_eq!(
            read(&put, 412, None, r#"{"outcome":"mismatch","view":7}"#),
            done(Told::Mismatch, 7)
        );
        assert_eq!(
            read(&put, 504, None, r#"{"outcome":"unknown"}"#),
            Attempt::Unknown
        );
        assert_eq!(
            read(&put, 503, None, r#"{"outcome":"crowded"}"#),
            Attempt::Refused
        );
        assert_eq!(
            read(&put, 409, None, r#"{"outcome":"conflict","view":1}"#),
            Attempt::Never
        );
        assert_eq!(
            read(&put, 409, None, r#"{"outcome":"superseded","view":1}"#),
            Attempt::Unknown
        );
        assert_eq!(read(&put, 200, None, "cut"), Attempt::Unknown);
        let get = Operation::Get;
        assert_eq!(
            read(&get, 200, Some(3), "x"),
            done(Told::Read(Some("x".to_owned())), 3)
        );
        assert_eq!(read(&get, 404, Some(3), ""), done(Told::Read(None), 3));
        assert_eq!(read(&get, 404, None, "nothing is here"), Attempt::Unknown);
        assert_eq!(
            read(&get, 504, None, r#"{"outcome":"unknown"}"#),
            Attempt::Unknown
        );
    }
}
