//! An application in another process, over HTTP: in whatever language.
//!
//! The member asks by `POST` with a body of JSON, and takes JSON; bytes are hexadecimal digits.
//!
//! | Path | Asked with, beside `applied` | Answer |
//! |---|---|---|
//! | `/build` | `view`, `leader`, `parent`, `ancestors` | `{"contents": HEX}`, or `null` for none; `"more": true` if more waits |
//! | `/verify` | the same, and `contents` | `{"good": true}` or `false` |
//! | `/certify` | `block` | `{"good": true}` or `false` |
//! | `/finalized` | `block` | `{}` |
//! | `/snapshot` | | `{"snapshot": HEX}` |
//! | `/restore` | `at`, `snapshot` (null: as it began), no `applied` | `{}`, or 422 where it is none |
//!
//! A name is `{"view": 7, "payload": HEX}`; a block has `view`, `payload`, `parent` and `contents`. `applied` is the name of the last
//! block that this member told to be final. **An application whose own isn't that answers 409** with `{"applied": NAME}`: it was started
//! anew, or an answer of it was lost. Then it is told the last snapshot, and the blocks behind it once more, and is asked again. So it
//! need keep nothing on a disk. What isn't answered is asked again, with waits that grow: meanwhile this member votes for nothing new.
//!
//! `POST /wake` on the member's address says that there is something to propose; without it a block is asked for at the pace of
//! `times.idle`.

use crate::http::{Answer, Routes, Told, told};
use crate::member::Service;
use anyhow::{Context as _, Result, anyhow};
use application::{Application, Block, BlockId, Context, RestoreError, Wake};
use hyper::client::HttpConnector;
use hyper::{Body, Client, Method, Request, StatusCode, header};
use serde_json::{Value, json};
use std::cell::{Cell, RefCell};
use std::net::SocketAddr;
use std::sync::atomic::{AtomicBool, Ordering};
use std::sync::{Arc, Mutex};
use std::time::Duration;
use tokio::runtime::{Builder, Runtime};
use tokio::sync::Notify;
use tracing::{info, warn};

/// How long an answer may take before it is asked again.
const PATIENCE: Duration = Duration::from_secs(30);
/// How long is waited before something is asked again: the first time, and the longest.
const AGAIN: (Duration, Duration) = (Duration::from_millis(50), Duration::from_secs(5));

/// How long an answer may take when the member is to stop.
const LAST: Duration = Duration::from_secs(2);

/// What the routes, the application and the member share.
#[derive(Default)]
struct Shared {
    has_work: AtomicBool,
    wake: Mutex<Option<Wake>>,
    stops: AtomicBool,
    stopping: Notify,
}

impl Shared {
    /// Nothing is asked again any more.
    fn stop(&self) {
        self.stops.store(true, Ordering::SeqCst);
        self.stopping.notify_one();
    }
}

/// What the application was told, for as long as it may have to be told again.
struct Known {
    /// The last block that was told to be final.
    applied: BlockId,
    /// Behind which block the snapshot is.
    at: BlockId,
    /// The snapshot; none where it begins.
    snapshot: Option<Vec<u8>>,
    /// The final blocks behind the snapshot.
    behind: Vec<Block>,
}

/// An application that answers over HTTP.
pub struct Remote {
    address: SocketAddr,
    client: Client<HttpConnector>,
    runtime: Runtime,
    shared: Arc<Shared>,
    known: RefCell<Known>,
    /// Whether something was given up unanswered.
    lost: Cell<bool>,
}

/// What came back: a status, and what it says.
type Answered = (StatusCode, Value);

fn name(id: &BlockId) -> Value {
    json!({"view": id.view, "payload": hex::encode(id.payload)})
}

fn spelled(block: &Block) -> Value {
    json!({
        "view": block.id.view,
        "payload": hex::encode(block.id.payload),
        "parent": name(&block.parent),
        "contents": hex::encode(&block.contents),
    })
}

fn place(context: &Context, ancestors: &[Block]) -> Value {
    json!({
        "view": context.view,
        "leader": context.leader,
        "parent": name(&context.parent),
        "ancestors": ancestors.iter().map(spelled).collect::<Vec<_>>(),
    })
}

fn digits(answer: &Value, of: &str) -> Result<Vec<u8>> {
    let text = answer[of].as_str().with_context(|| format!("no {of}"))?;
    Ok(hex::decode(text)?)
}

/// The service of the application at this address.
///
/// # Errors
///
/// Where no runtime is to be had for its client.
pub fn service(address: SocketAddr) -> Result<Service> {
    let shared = Arc::new(Shared::default());
    let remote = Remote::new(address, shared.clone())?;
    let stopped = shared.clone();
    let service = Service::new(remote).with_routes(Arc::new(Waking(shared)));
    Ok(Service {
        at_stop: Some(Box::new(move || stopped.stop())),
        ..service
    })
}

/// The path by which an application wakes its member.
struct Waking(Arc<Shared>);

impl Routes for Waking {
    fn answer(&self, request: Request<Body>, _: &Told) -> Result<Answer, Box<Request<Body>>> {
        if (request.method(), request.uri().path()) != (&Method::POST, "/wake") {
            return Err(Box::new(request));
        }
        self.0.has_work.store(true, Ordering::SeqCst);
        let wake = self.0.wake.lock().expect("no thread failed with it");
        if let Some(wake) = &*wake {
            wake.wake();
        }
        Ok(Box::pin(async {
            told(StatusCode::OK, "application/json", "{}\n")
        }))
    }
}

impl Remote {
    fn new(address: SocketAddr, shared: Arc<Shared>) -> Result<Remote> {
        Ok(Remote {
            address,
            client: Client::new(),
            runtime: Builder::new_current_thread().enable_all().build()?,
            shared,
            known: RefCell::new(Known {
                applied: BlockId::GENESIS,
                at: BlockId::GENESIS,
                snapshot: None,
                behind: Vec::new(),
            }),
            lost: Cell::new(false),
        })
    }

    /// One request.
    async fn post(&self, path: &str, body: &Value) -> Result<Answered> {
        let request = Request::post(format!("http://{}{path}", self.address))
            .header(header::CONTENT_TYPE, "application/json")
            .body(Body::from(body.to_string()))?;
        let asked = async {
            let response = self.client.request(request).await?;
            let status = response.status();
            let bytes = hyper::body::to_bytes(response.into_body()).await?;
            let answer = serde_json::from_slice(&bytes).unwrap_or_default();
            Ok::<Answered, anyhow::Error>((status, answer))
        };
        let answered = tokio::time::timeout(PATIENCE, asked).await;
        answered.map_err(|_| anyhow!("no answer in {PATIENCE:?}"))?
    }

    /// One request whose answer this takes; all else is an error.
    async fn said<T>(
        &self,
        path: &str,
        body: &Value,
        take: impl Fn(&Value) -> Result<T>,
    ) -> Result<T> {
        let (status, answer) = self.post(path, body).await?;
        anyhow::ensure!(status == StatusCode::OK, "{path}: {status} {answer}");
        take(&answer).with_context(|| format!("{path}: {answer}"))
    }

    /// Tells the application all that it has to know: it was started anew.
    async fn bring_up(&self) -> Result<()> {
        let (restore, behind) = {
            let known = self.known.borrow();
            let snapshot = known.snapshot.as_ref().map(hex::encode);
            let restore = json!({"at": name(&known.at), "snapshot": snapshot});
            (restore, known.behind.clone())
        };
        info!(blocks = behind.len(), "the application is told its state");
        self.said("/restore", &restore, |_| Ok(())).await?;
        for block in &behind {
            let body = json!({"applied": name(&block.parent), "block": spelled(block)});
            self.said("/finalized", &body, |_| Ok(())).await?;
        }
        Ok(())
    }

    /// Asks once, and brings the application up first where it says that it isn't.
    async fn ask_once<T>(
        &self,
        path: &str,
        body: &Value,
        take: &impl Fn(StatusCode, &Value) -> Option<Result<T>>,
    ) -> Result<T> {
        for _ in 0..2 {
            let (status, answer) = self.post(path, body).await?;
            if let Some(taken) = take(status, &answer) {
                return taken.with_context(|| format!("{path}: {answer}"));
            }
            if status != StatusCode::CONFLICT {
                return Err(anyhow!("{path}: {status} {answer}"));
            }
            self.bring_up().await?;
        }
        Err(anyhow!("{path}: its state is still another"))
    }

    /// Asks until it is answered; `None` where this is to stop first.
    fn ask<T>(
        &self,
        path: &str,
        mut body: Value,
        take: impl Fn(StatusCode, &Value) -> Option<Result<T>>,
    ) -> Option<T> {
        if path != "/restore" {
            body["applied"] = name(&self.known.borrow().applied);
        }
        let asking = async {
            let mut wait = AGAIN.0;
            loop {
                match self.ask_once(path, &body, &take).await {
                    Ok(answer) => return answer,
                    Err(told) => {
                        let told = format!("{told:#}");
                        warn!(address = %self.address, %told, ?wait, "the application is asked again");
                    }
                }
                tokio::time::sleep(wait).await;
                wait = (wait * 2).min(AGAIN.1);
            }
        };
        let answered = self.runtime.block_on(async {
            tokio::select! {
                answer = asking => Some(answer),
                () = self.stopped() => None,
            }
        });
        if answered.is_none() {
            self.lost.set(true);
        }
        answered
    }

    /// Waits until this is to stop, and so long as an answer then may still take.
    async fn stopped(&self) {
        while !self.shared.stops.load(Ordering::SeqCst) {
            self.shared.stopping.notified().await;
        }
        tokio::time::sleep(LAST).await;
    }
}

/// The usual way to take an answer: of status 200.
fn ok<T>(take: impl Fn(&Value) -> Result<T>) -> impl Fn(StatusCode, &Value) -> Option<Result<T>> {
    move |status, answer| (status == StatusCode::OK).then(|| take(answer))
}

fn good(answer: &Value) -> Result<bool> {
    answer["good"].as_bool().context("neither good nor not")
}

impl Application for Remote {
    fn build(&mut self, context: &Context, ancestors: &[Block]) -> Option<Vec<u8>> {
        // What comes while it builds is work again.
        self.shared.has_work.store(false, Ordering::SeqCst);
        let built = |answer: &Value| -> Result<(Option<Vec<u8>>, bool)> {
            let contents = match answer["contents"] {
                Value::Null => None,
                _ => Some(digits(answer, "contents")?),
            };
            Ok((contents, answer["more"] == true))
        };
        let (contents, more) = self.ask("/build", place(context, ancestors), ok(built))?;
        if more {
            self.shared.has_work.store(true, Ordering::SeqCst);
        }
        contents
    }

    fn verify(&mut self, context: &Context, ancestors: &[Block], contents: &[u8]) -> bool {
        let mut body = place(context, ancestors);
        body["contents"] = hex::encode(contents).into();
        // Where this stops, no answer reaches the node any more.
        self.ask("/verify", body, ok(good)).unwrap_or(false)
    }

    fn certify(&mut self, block: &Block) -> bool {
        let body = json!({"block": spelled(block)});
        self.ask("/certify", body, ok(good)).unwrap_or(false)
    }

    fn finalized(&mut self, block: &Block) {
        let own = name(&block.id);
        let body = json!({"block": spelled(block)});
        self.ask("/finalized", body, |status, answer| {
            // It has it, and its answer was lost.
            let has = status == StatusCode::CONFLICT && answer["applied"] == own;
            (has || status == StatusCode::OK).then_some(Ok(()))
        });
        let mut known = self.known.borrow_mut();
        known.applied = block.id;
        known.behind.push(block.clone());
    }

    fn snapshot(&self) -> Vec<u8> {
        let taken = self.ask("/snapshot", json!({}), ok(|it| digits(it, "snapshot")));
        let Some(bytes) = taken else {
            return Vec::new();
        };
        let mut known = self.known.borrow_mut();
        known.at = known.applied;
        known.snapshot = Some(bytes.clone());
        known.behind.clear();
        bytes
    }

    fn restore(&mut self, at: &BlockId, snapshot: &[u8]) -> Result<(), RestoreError> {
        let body = json!({"at": name(at), "snapshot": hex::encode(snapshot)});
        let refused = self.ask("/restore", body, |status, answer| match status {
            StatusCode::OK => Some(Ok(None)),
            StatusCode::UNPROCESSABLE_ENTITY => Some(Ok(Some(answer.to_string()))),
            _ => None,
        });
        match refused {
            Some(None) => {
                self.known.replace(Known {
                    applied: *at,
                    at: *at,
                    snapshot: Some(snapshot.to_vec()),
                    behind: Vec::new(),
                });
                Ok(())
            }
            Some(Some(why)) => Err(RestoreError(why)),
            None => Err(RestoreError("it was to stop".to_owned())),
        }
    }

    fn attach(&mut self, wake: Wake) {
        let mut place = self.shared.wake.lock().expect("no thread failed with it");
        *place = Some(wake);
    }

    fn has_work(&self) -> bool {
        self.shared.has_work.load(Ordering::SeqCst)
    }

    fn is_lost(&self) -> bool {
        self.lost.get()
    }
}

#[cfg(test)]
mod tests {
    use super::*;
    use hyper::service::{make_service_fn, service_fn};
    use hyper::{Response, Server};
    use std::collections::VecDeque;
    use std::convert::Infallible;
    use std::sync::mpsc::{Sender, channel};
    use std::thread;
    use std::time::Instant;

    /// What the application was asked, and what it says to it, in order.
    #[derive(Default)]
    struct Script {
        asked: Vec<(String, Value)>,
        says: VecDeque<(u16, Value)>,
    }

    /// An application that says what a test has it say, as long as this lives.
    struct Scripted {
        script: Arc<Mutex<Script>>,
        remote: Remote,
        shared: Arc<Shared>,
        _over: tokio::sync::oneshot::Sender<()>,
    }

    fn serve(
        script: Arc<Mutex<Script>>,
        at: Sender<SocketAddr>,
    ) -> tokio::sync::oneshot::Sender<()> {
        let (over, ended) = tokio::sync::oneshot::channel::<()>();
        thread::spawn(move || {
            let runtime = Builder::new_current_thread().enable_all().build().unwrap();
            runtime.block_on(async {
                let service = make_service_fn(move |_| {
                    let script = script.clone();
                    async move {
                        Ok::<_, Infallible>(service_fn(move |request| say(script.clone(), request)))
                    }
                });
                let server = Server::bind(&SocketAddr::from(([127, 0, 0, 1], 0))).serve(service);
                at.send(server.local_addr()).unwrap();
                let _ = server
                    .with_graceful_shutdown(async { drop(ended.await) })
                    .await;
            });
        });
        over
    }

    async fn say(
        script: Arc<Mutex<Script>>,
        request: Request<Body>,
    ) -> Result<Response<Body>, Infallible> {
        let path = request.uri().path().to_owned();
        let bytes = hyper::body::to_bytes(request.into_body()).await.unwrap();
        let mut script = script.lock().unwrap();
        script
            .asked
            .push((path, serde_json::from_slice(&bytes).unwrap()));
        let (status, said) = script
            .says
            .pop_front()
            .unwrap_or((500, json!("nothing is left")));
        let mut response = Response::new(Body::from(said.to_string()));
        *response.status_mut() = StatusCode::from_u16(status).unwrap();
        Ok(response)
    }

    impl Scripted {
        fn new(says: &[(u16, Value)]) -> Scripted {
            let script = Arc::new(Mutex::new(Script {
                says: says.iter().cloned().collect(),
                ..Script::default()
            }));
            let (at, address) = channel();
            let over = serve(script.clone(), at);
            let shared = Arc::new(Shared::default());
            let remote = Remote::new(address.recv().unwrap(), shared.clone()).unwrap();
            Scripted {
                script,
                remote,
                shared,
                _over: over,
            }
        }

        fn asked(&self) -> Vec<(String, Value)> {
            std::mem::take(&mut self.script.lock().unwrap().asked)
        }

        fn paths(&self) -> Vec<String> {
            self.asked().into_iter().map(|(path, _)| path).collect()
        }
    }

    fn id(view: u64) -> BlockId {
        BlockId {
            view,
            payload: [view as u8; 32],
        }
    }

    fn a_block(view: u64) -> Block {
        let parent = if view == 1 {
            BlockId::GENESIS
        } else {
            id(view - 1)
        };
        Block {
            id: id(view),
            parent,
            contents: vec![view as u8],
        }
    }

    fn done() -> (u16, Value) {
        (200, json!({}))
    }

    #[test]
    fn an_application_that_was_started_anew_is_told_its_state_again() {
        let mut it = Scripted::new(&[
            done(),
            done(),
            (409, json!({"applied": name(&BlockId::GENESIS)})),
            done(),
            done(),
            done(),
            (200, json!({"good": true})),
        ]);
        it.remote.finalized(&a_block(1));
        it.remote.finalized(&a_block(2));
        assert!(it.remote.certify(&a_block(3)));
        let asked = it.asked();
        let paths: Vec<&str> = asked.iter().map(|(path, _)| &path[..]).collect();
        let told = ["/finalized", "/finalized"];
        let again = [
            "/certify",
            "/restore",
            "/finalized",
            "/finalized",
            "/certify",
        ];
        assert_eq!(paths, [&told[..], &again].concat());
        assert_eq!(asked[2].1["applied"], name(&id(2)));
        assert_eq!(
            asked[3].1,
            json!({"at": name(&BlockId::GENESIS), "snapshot": null})
        );
        assert_eq!((&asked[4].1, &asked[5].1), (&asked[0].1, &asked[1].1));
        assert_eq!(asked[4].1["block"]["contents"], "01");
    }

    #[test]
    fn it_is_told_from_the_last_snapshot_on() {
        let mut it = Scripted::new(&[
            done(),
            (200, json!({"snapshot": "0aff"})),
            done(),
            (409, json!({"applied": name(&BlockId::GENESIS)})),
            done(),
            done(),
            (200, json!({"contents": "05", "more": true})),
        ]);
        it.remote.finalized(&a_block(1));
        assert_eq!(it.remote.snapshot(), [10, 255]);
        it.remote.finalized(&a_block(2));
        let context = Context {
            view: 3,
            leader: 1,
            parent: id(2),
        };
        assert_eq!(it.remote.build(&context, &[]), Some(vec![5]));
        assert!(it.remote.has_work());
        let asked = it.asked();
        assert_eq!(asked[4].1, json!({"at": name(&id(1)), "snapshot": "0aff"}));
        assert_eq!(asked[5], asked[2]);
    }

    #[test]
    fn a_block_whose_answer_was_lost_is_told_once() {
        let mut it = Scripted::new(&[
            (500, json!("it was carried out, and the answer is lost")),
            (409, json!({"applied": name(&id(1))})),
        ]);
        it.remote.finalized(&a_block(1));
        assert_eq!(it.paths(), ["/finalized", "/finalized"]);
    }

    #[test]
    fn what_is_no_answer_is_asked_again_and_a_bad_snapshot_is_refused() {
        let mut it = Scripted::new(&[
            (200, json!({"good": "perhaps"})),
            (200, json!(7)),
            (200, json!({"good": false})),
            (422, json!({"why": "none"})),
        ]);
        assert!(!it.remote.certify(&a_block(1)));
        assert_eq!(it.paths(), ["/certify"; 3]);
        let refused = it.remote.restore(&id(1), b"x").unwrap_err();
        assert!(refused.0.contains("none"), "{refused}");
    }

    #[test]
    fn where_the_member_stops_nothing_is_waited_for() {
        let mut it = Scripted::new(&[]);
        let shared = it.shared.clone();
        thread::spawn(move || {
            thread::sleep(Duration::from_millis(100));
            shared.stop();
        });
        let begun = Instant::now();
        assert!(!it.remote.is_lost());
        it.remote.finalized(&a_block(1));
        assert!(it.remote.is_lost());
        assert!(begun.elapsed() >= LAST);
    }
}
