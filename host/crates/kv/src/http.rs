//! The store over HTTP.
//!
//! | Request | Answer |
//! |---|---|
//! | `GET /keys/KEY` | the value behind all that was acknowledged before: through the log |
//! | `GET /keys/KEY?local` | the value in this member's state, **stale perhaps**; with `after=VIEW` once it has reached that view |
//! | `GET /keys/KEY?at=VIEW` | the value that this member's state had behind that view |
//! | `PUT /keys/KEY` | the key has the body as its value |
//! | `DELETE /keys/KEY` | the key has none |
//! | `POST /keys/KEY` | `{"expected": VALUE, "new": VALUE}`: if it has the first it has the second, in `application/json` |
//! | `GET /history/KEY` | the versions of the key in this member's state; `after=VIEW` as above |
//! | `GET /chain?after=VIEW` | the last blocks that this member carried out |
//! | `GET /store` | the store in figures |
//! | `GET /` | a page that shows the member |
//!
//! KEY is percent-encoded; VALUE is a text, `{"hex": "6162"}`, or `null` for none. `within=MILLISECONDS` (at most 60,000) says
//! how long an answer may take, 10,000 if it isn't said.
//!
//! **Repeating.** A client that may have to send a request again draws a name (16 bytes, `voumlis-client` in 32 hexadecimal digits),
//! counts its requests from 1 on (`voumlis-number`), and has one under way at a time; a request that comes again, at whatever
//! member, is carried out once. Without these headers each request is another.
//!
//! | Status | `outcome` | |
//! |---|---|---|
//! | 200 | `written` | it was carried out, in the block of `view` |
//! | 200 | | a get: the value is the body, its view in the header `voumlis-view`; `voumlis-read` is `log` or `local` |
//! | 404 | | a get: there is no value |
//! | 412 | `mismatch` | the key had something else: nothing changed |
//! | 507 | `full` | there is no room: nothing changed |
//! | 409 | `conflict`, `busy` | another command has this number: this one isn't carried out |
//! | 409 | `unknown_client` | a client's first request has number 1, and one that was silent for long is forgotten |
//! | 409 | `superseded` | a later request of this client was carried out; what became of this one isn't known any more |
//! | 410 | `forgotten` | so old a history isn't kept |
//! | 503 | `crowded` | too many wait: it isn't carried out for having been sent here |
//! | 504 | `unknown` | no answer came in time: **it may have been carried out, or may be yet**; send it again to know |
//! | 400, 405, 408, 413, 415 | `refused` | it is no request |

use crate::command::{ClientId, Command, Key, LONGEST_VALUE, Request, RequestId, Value};
use crate::machine::{Answer, History, Outcome};
use crate::store::{Clients, Local, NoAnswer, Refused};
use hyper::body::{Bytes, HttpBody};
use hyper::header::{CONTENT_TYPE, HeaderValue};
use hyper::{Body, Method, Response, StatusCode};
use ring::rand::{SecureRandom, SystemRandom};
use serde::{Deserialize, Deserializer, Serialize};
use serde_json::json;
use std::time::Duration;

/// How long an answer may take if a request doesn't say.
const PATIENCE: Duration = Duration::from_secs(10);
/// How long it may take at most.
const LONGEST_PATIENCE: Duration = Duration::from_secs(60);
/// How long a request's body may take.
const BODY_PATIENCE: Duration = Duration::from_secs(10);
/// Bytes of the longest body: two values, each byte of them as an escaped character or two digits.
const LONGEST_BODY: usize = 2 * 6 * LONGEST_VALUE + 256;

/// The page, and the program in it.
const PAGE: &str = include_str!("page.html");
const PAGE_PROGRAM: &str = include_str!("page.js");

/// What goes wrong before a request is one, or instead of an answer: a status, and a word.
#[derive(Debug)]
struct Refusal(StatusCode, &'static str, String);

impl Refusal {
    fn bad(why: impl ToString) -> Refusal {
        Refusal(StatusCode::BAD_REQUEST, "refused", why.to_string())
    }
}

/// What a path's query says.
#[derive(Debug, Default, PartialEq, Eq)]
struct Query {
    local: bool,
    after: Option<u64>,
    at: Option<u64>,
    within: Option<Duration>,
}

impl Query {
    fn read(query: &str) -> Result<Query, Refusal> {
        let mut said = Query::default();
        for part in query.split('&').filter(|part| !part.is_empty()) {
            let (name, text) = part.split_once('=').unwrap_or((part, ""));
            let number = || {
                text.parse::<u64>()
                    .map_err(|_| Refusal::bad(format!("no number: {part}")))
            };
            match name {
                "local" if text.is_empty() => said.local = true,
                "after" => said.after = Some(number()?),
                "at" => said.at = Some(number()?),
                "within" => said.within = Some(Duration::from_millis(number()?)),
                _ => return Err(Refusal::bad(format!("no such word: {part}"))),
            }
        }
        if said.within.is_some_and(|within| within > LONGEST_PATIENCE) {
            return Err(Refusal::bad("an answer may take at most 60,000 ms"));
        }
        Ok(said)
    }

    fn patience(&self) -> Duration {
        self.within.unwrap_or(PATIENCE)
    }
}

/// What a path names.
enum Place {
    Key(Key),
    History(Key),
    Chain,
    Store,
    Page,
    PageProgram,
}

/// Where this path leads; none where it isn't the store's.
fn place(path: &str) -> Option<Result<Place, Refusal>> {
    let named = |text: &str, make: fn(Key) -> Place| -> Result<Place, Refusal> {
        let bytes =
            percent_decoded(text).ok_or_else(|| Refusal::bad("the key isn't percent-encoded"))?;
        Key::new(bytes)
            .map(make)
            .map_err(|why| Refusal::bad(format!("the key: {why}")))
    };
    if let Some(text) = path.strip_prefix("/keys/") {
        return Some(named(text, Place::Key));
    }
    if let Some(text) = path.strip_prefix("/history/") {
        return Some(named(text, Place::History));
    }
    match path {
        "/chain" => Some(Ok(Place::Chain)),
        "/store" => Some(Ok(Place::Store)),
        "/" => Some(Ok(Place::Page)),
        "/page.js" => Some(Ok(Place::PageProgram)),
        _ => None,
    }
}

/// The bytes of a path's last part, in which `/` is encoded.
fn percent_decoded(text: &str) -> Option<Vec<u8>> {
    let mut bytes = Vec::with_capacity(text.len());
    let mut rest = text.as_bytes();
    while let Some((first, behind)) = rest.split_first() {
        rest = behind;
        match first {
            b'/' => return None,
            b'%' => {
                let (digits, behind) = rest.split_first_chunk::<2>()?;
                let mut byte = [0];
                hex::decode_to_slice(digits, &mut byte).ok()?;
                bytes.push(byte[0]);
                rest = behind;
            }
            other => bytes.push(*other),
        }
    }
    Some(bytes)
}

/// Whether a request to this path is answered here.
pub fn has(path: &str) -> bool {
    place(path).is_some()
}

/// The answer of the store; of a path that isn't the store's, that there is nothing.
pub async fn answer(clients: &Clients, request: hyper::Request<Body>) -> Response<Body> {
    let refusal = match place(request.uri().path()) {
        None => Refusal(StatusCode::NOT_FOUND, "refused", "no such path".to_owned()),
        Some(Err(refusal)) => refusal,
        Some(Ok(place)) => match answer_at(clients, place, request).await {
            Ok(response) => return response,
            Err(refusal) => refusal,
        },
    };
    let Refusal(status, outcome, why) = refusal;
    told(status, &json!({ "outcome": outcome, "why": why }))
}

async fn answer_at(
    clients: &Clients,
    place: Place,
    request: hyper::Request<Body>,
) -> Result<Response<Body>, Refusal> {
    let query = Query::read(request.uri().query().unwrap_or(""))?;
    let is_get = request.method() == Method::GET;
    match place {
        Place::Key(key) if is_get && (query.local || query.at.is_some()) => {
            read_local(clients, &key, &query).await
        }
        Place::Key(key) => {
            let id = request_id(&request)?;
            let command = command(key, request).await?;
            submit(clients, Request { id, command }, &query).await
        }
        _ if !is_get => Err(Refusal(
            StatusCode::METHOD_NOT_ALLOWED,
            "refused",
            "here one can only read".to_owned(),
        )),
        Place::History(key) => {
            reach(clients, &query).await?;
            let (view, history) = clients.history(&key);
            Ok(told(
                StatusCode::OK,
                &ToldHistory::new(view, history.unwrap_or_default()),
            ))
        }
        Place::Chain => Ok(told(
            StatusCode::OK,
            &clients.chain(query.after.unwrap_or(0)),
        )),
        Place::Store => Ok(told(StatusCode::OK, &clients.summary())),
        Place::Page => Ok(page("text/html; charset=utf-8", PAGE)),
        Place::PageProgram => Ok(page("text/javascript; charset=utf-8", PAGE_PROGRAM)),
    }
}

/// The name and number that a request gives itself, or fresh ones.
fn request_id(request: &hyper::Request<Body>) -> Result<RequestId, Refusal> {
    let header = |name: &str| request.headers().get(name).map(HeaderValue::as_bytes);
    match (header("voumlis-client"), header("voumlis-number")) {
        (None, None) => {
            let mut client = [0; 16];
            SystemRandom::new().fill(&mut client).map_err(|_| {
                let why = "the system has no random numbers".to_owned();
                Refusal(StatusCode::SERVICE_UNAVAILABLE, "refused", why)
            })?;
            Ok(RequestId {
                client: ClientId(client),
                number: 1,
            })
        }
        (Some(client), Some(number)) => {
            let mut bytes = [0; 16];
            hex::decode_to_slice(client, &mut bytes)
                .map_err(|_| Refusal::bad("voumlis-client has 32 hexadecimal digits"))?;
            let number = std::str::from_utf8(number)
                .ok()
                .and_then(|text| text.parse().ok());
            let number = number
                .filter(|number| *number > 0)
                .ok_or_else(|| Refusal::bad("voumlis-number is a number from 1 on"))?;
            Ok(RequestId {
                client: ClientId(bytes),
                number,
            })
        }
        _ => Err(Refusal::bad(
            "voumlis-client and voumlis-number come together",
        )),
    }
}

async fn command(key: Key, request: hyper::Request<Body>) -> Result<Command, Refusal> {
    match *request.method() {
        Method::GET => Ok(Command::Get { key }),
        Method::DELETE => Ok(Command::Delete { key }),
        Method::PUT => {
            let value = Value::new(body(request.into_body()).await?).map_err(too_long)?;
            Ok(Command::Put { key, value })
        }
        Method::POST => {
            // A page of another origin can't send this type without being asked.
            let content_type = request
                .headers()
                .get(CONTENT_TYPE)
                .map(HeaderValue::as_bytes);
            if content_type != Some(b"application/json") {
                let why = "a compare-and-set is application/json".to_owned();
                return Err(Refusal(StatusCode::UNSUPPORTED_MEDIA_TYPE, "refused", why));
            }
            let bytes = body(request.into_body()).await?;
            let said: SaidSwap = serde_json::from_slice(&bytes).map_err(Refusal::bad)?;
            let [expected, new] =
                [said.expected, said.new].map(|value| value.map(SaidValue::value).transpose());
            Ok(Command::CompareAndSet {
                key,
                expected: expected?,
                new: new?,
            })
        }
        _ => {
            let why = "a key is read by GET, written by PUT, POST and DELETE".to_owned();
            Err(Refusal(StatusCode::METHOD_NOT_ALLOWED, "refused", why))
        }
    }
}

fn too_long(why: crate::Malformed) -> Refusal {
    Refusal(
        StatusCode::PAYLOAD_TOO_LARGE,
        "refused",
        format!("the value: {why}"),
    )
}

/// A compare-and-set as it is spelled. Both have to be there: a forgotten one isn't `null`.
#[derive(Deserialize)]
#[serde(deny_unknown_fields)]
struct SaidSwap {
    #[serde(deserialize_with = "Option::deserialize")]
    expected: Option<SaidValue>,
    #[serde(deserialize_with = "Option::deserialize")]
    new: Option<SaidValue>,
}

#[derive(Deserialize)]
#[serde(untagged)]
enum SaidValue {
    Text(String),
    Bytes(SaidBytes),
}

#[derive(Deserialize)]
#[serde(deny_unknown_fields)]
struct SaidBytes {
    #[serde(deserialize_with = "bytes_of_digits")]
    hex: Vec<u8>,
}

fn bytes_of_digits<'de, D: Deserializer<'de>>(deserializer: D) -> Result<Vec<u8>, D::Error> {
    hex::decode(String::deserialize(deserializer)?).map_err(serde::de::Error::custom)
}

impl SaidValue {
    fn value(self) -> Result<Value, Refusal> {
        match self {
            SaidValue::Text(text) => Value::new(text),
            SaidValue::Bytes(bytes) => Value::new(bytes.hex),
        }
        .map_err(too_long)
    }
}

/// The bytes of a body, as long as it isn't too long and doesn't come too slowly.
async fn body(mut body: Body) -> Result<Bytes, Refusal> {
    let reading = async {
        let mut bytes = Vec::new();
        while let Some(part) = body.data().await {
            bytes.extend(part.map_err(Refusal::bad)?);
            if bytes.len() > LONGEST_BODY {
                let why = "the body is too long".to_owned();
                return Err(Refusal(StatusCode::PAYLOAD_TOO_LARGE, "refused", why));
            }
        }
        Ok(bytes.into())
    };
    tokio::time::timeout(BODY_PATIENCE, reading)
        .await
        .unwrap_or_else(|_| {
            let why = "the body takes too long".to_owned();
            Err(Refusal(StatusCode::REQUEST_TIMEOUT, "refused", why))
        })
}

/// Waits for the view that a query wants.
async fn reach(clients: &Clients, query: &Query) -> Result<(), Refusal> {
    let Some(view) = query.after else {
        return Ok(());
    };
    let reached = clients.reached(view, query.patience()).await;
    reached.map(|_| ()).ok_or_else(|| {
        let why = format!("this member hasn't reached view {view} in time");
        Refusal(StatusCode::GATEWAY_TIMEOUT, "unknown", why)
    })
}

async fn read_local(
    clients: &Clients,
    key: &Key,
    query: &Query,
) -> Result<Response<Body>, Refusal> {
    reach(clients, query).await?;
    let local = match query.at {
        None => clients.local(key),
        Some(view) => clients.local_as_of(key, view).map_err(|_| {
            let why = format!("the history of view {view} isn't kept");
            Refusal(StatusCode::GONE, "forgotten", why)
        })?,
    };
    let Local { view, value } = local;
    Ok(read(view, value, "local"))
}

async fn submit(
    clients: &Clients,
    request: Request,
    query: &Query,
) -> Result<Response<Body>, Refusal> {
    let Answer { view, outcome } =
        clients
            .submit(request, query.patience())
            .await
            .map_err(|no_answer| match no_answer {
                NoAnswer::Refused(Refused::Crowded) => {
                    let why = "too many requests wait".to_owned();
                    Refusal(StatusCode::SERVICE_UNAVAILABLE, "crowded", why)
                }
                NoAnswer::Refused(Refused::Busy) => {
                    let why = "another command of this number waits".to_owned();
                    Refusal(StatusCode::CONFLICT, "busy", why)
                }
                NoAnswer::Unknown => {
                    let why =
                        "no answer in time: it may have been carried out, or may be yet".to_owned();
                    Refusal(StatusCode::GATEWAY_TIMEOUT, "unknown", why)
                }
            })?;
    let (status, word) = match outcome {
        Outcome::Read(value) => return Ok(read(view, value, "log")),
        Outcome::Written => (StatusCode::OK, "written"),
        Outcome::Mismatch => (StatusCode::PRECONDITION_FAILED, "mismatch"),
        Outcome::Full => (StatusCode::INSUFFICIENT_STORAGE, "full"),
        Outcome::Superseded => (StatusCode::CONFLICT, "superseded"),
        Outcome::Conflict => (StatusCode::CONFLICT, "conflict"),
        Outcome::UnknownClient => (StatusCode::CONFLICT, "unknown_client"),
    };
    Ok(told(status, &json!({ "outcome": word, "view": view })))
}

fn read(view: u64, value: Option<Value>, how: &'static str) -> Response<Body> {
    let status = if value.is_some() {
        StatusCode::OK
    } else {
        StatusCode::NOT_FOUND
    };
    let bytes = value.map_or_else(Bytes::new, |value| value.bytes().clone());
    let mut response = Response::new(Body::from(bytes));
    *response.status_mut() = status;
    let headers = response.headers_mut();
    headers.insert(
        CONTENT_TYPE,
        HeaderValue::from_static("application/octet-stream"),
    );
    headers.insert("voumlis-view", HeaderValue::from(view));
    headers.insert("voumlis-read", HeaderValue::from_static(how));
    headers.insert(
        "x-content-type-options",
        HeaderValue::from_static("nosniff"),
    );
    response
}

fn told(status: StatusCode, said: &impl Serialize) -> Response<Body> {
    // Of what is told here nothing fails to be spelled: all names are texts.
    let text = serde_json::to_string(said).unwrap_or_default();
    let mut response = Response::new(Body::from(text + "\n"));
    *response.status_mut() = status;
    response
        .headers_mut()
        .insert(CONTENT_TYPE, HeaderValue::from_static("application/json"));
    response
}

/// A part of the page, which loads nothing from elsewhere.
fn page(content_type: &'static str, text: &'static str) -> Response<Body> {
    let mut response = Response::new(Body::from(text));
    let headers = response.headers_mut();
    headers.insert(CONTENT_TYPE, HeaderValue::from_static(content_type));
    let policy =
        "default-src 'none'; script-src 'self'; style-src 'unsafe-inline'; connect-src 'self'";
    headers.insert("content-security-policy", HeaderValue::from_static(policy));
    headers.insert(
        "x-content-type-options",
        HeaderValue::from_static("nosniff"),
    );
    response
}

#[derive(Serialize)]
struct ToldHistory {
    view: u64,
    forgotten: bool,
    versions: Vec<ToldVersion>,
}

/// A version: `hex` is null for a delete, and `text` where the value is none.
#[derive(Serialize)]
struct ToldVersion {
    view: u64,
    position: u16,
    hex: Option<String>,
    text: Option<String>,
}

impl ToldHistory {
    fn new(view: u64, history: History) -> ToldHistory {
        let version = |version: crate::machine::Version| {
            let bytes = version.value.map(|value| value.bytes().to_vec());
            ToldVersion {
                view: version.view,
                position: version.position,
                hex: bytes.as_ref().map(hex::encode),
                text: bytes.and_then(|bytes| String::from_utf8(bytes).ok()),
            }
        };
        let versions = history.versions.into_iter().map(version).collect();
        ToldHistory {
            view,
            forgotten: history.forgotten,
            versions,
        }
    }
}

#[cfg(test)]
mod tests {
    use super::*;

    #[test]
    fn a_path_is_decoded_or_refused() {
        assert_eq!(
            percent_decoded("a%2Fb%00%ff"),
            Some(b"a/b\x00\xff".to_vec())
        );
        assert_eq!(percent_decoded("a/b"), None);
        assert_eq!(percent_decoded("a%2"), None);
        assert_eq!(percent_decoded("a%zz"), None);
        assert!(has("/keys/a") && has("/keys/") && has("/") && !has("/metrics") && !has("/status"));
    }

    #[test]
    fn a_query_is_read_to_the_letter() {
        let said = Query::read("local&after=7&within=60000").unwrap();
        let within = Some(Duration::from_secs(60));
        assert_eq!(
            said,
            Query {
                local: true,
                after: Some(7),
                at: None,
                within
            }
        );
        assert_eq!(Query::read("").unwrap(), Query::default());
        for bad in [
            "local=1",
            "after=",
            "after=-1",
            "at=x",
            "within=60001",
            "stale",
            "=",
        ] {
            assert!(Query::read(bad).is_err(), "{bad}");
        }
    }
}
