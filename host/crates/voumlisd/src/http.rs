//! What a member answers over HTTP: its metrics, its status, and the routes of its application.

use crate::links::Links;
use anyhow::Result;
use hyper::server::conn::Http;
use hyper::service::service_fn;
use hyper::{Body, Method, Request, Response, StatusCode, header};
use serde_json::{Value, json};
use std::convert::Infallible;
use std::future::Future;
use std::io;
use std::path::PathBuf;
use std::pin::Pin;
use std::sync::Arc;
use std::task::{Context, Poll};
use std::time::{Duration, Instant};
use tokio::io::{AsyncRead, AsyncWrite, ReadBuf};
use tokio::net::{TcpListener, TcpStream};
use tokio::sync::Semaphore;
use tokio::time::{Sleep, sleep};
use tracing::debug;
use voumlis_core::member::record_bytes;
use voumlis_core::metrics::{Metrics, Status};

/// An answer that is on its way.
pub type Answer = Pin<Box<dyn Future<Output = Response<Body>> + Send>>;

/// What an application answers over HTTP, on the member's address.
pub trait Routes: Send + Sync + 'static {
    /// The answer to a request.
    ///
    /// # Errors
    ///
    /// Gives the request back where its path is none of the application's: the member answers it then.
    fn answer(&self, request: Request<Body>, member: &Told) -> Result<Answer, Box<Request<Body>>>;
}

/// What a member tells of itself. A clone tells of the same.
#[derive(Clone)]
pub struct Told {
    /// Its index.
    pub me: u32,
    /// How many members there are.
    pub members: u32,
    /// What is told.
    pub status: Arc<Status>,
    /// What is counted.
    pub metrics: Arc<Metrics>,
    pub(crate) links: Arc<Links>,
    pub(crate) record: PathBuf,
    pub(crate) started: Instant,
}

impl Told {
    /// The status as JSON.
    pub fn json(&self) -> Value {
        let state = self.status.get();
        let id =
            |id: application::BlockId| json!({"view": id.view, "payload": hex::encode(id.payload)});
        let (sending, hearing) = self.links.peers();
        let peers = self.links.waiting().into_iter().map(|(peer, queue)| {
            json!({
                "index": peer,
                "connected": sending.contains(&peer) && hearing.contains(&peer),
                "queue": queue,
            })
        });
        let record: u64 = record_bytes(&self.record).map_or(0, |files| files.iter().sum());
        json!({
            "member": self.me,
            "members": self.members,
            "view": state.view,
            "finalized": id(state.finalized),
            "applied": id(state.applied),
            "openings": state.life,
            "slowness": state.slowness,
            "milliseconds_in_view": state.entered.elapsed().as_millis() as u64,
            "sending_to": sending,
            "hearing_from": hearing,
            "peers": peers.collect::<Vec<_>>(),
            "blocked": state.blocked,
            "evidence": state.evidence,
            "record_bytes": record,
            "uptime_ms": self.started.elapsed().as_millis() as u64,
        })
    }

    fn metrics(&self) -> Result<String> {
        for (peer, bytes) in self.links.waiting() {
            let name = format!("bytes to {peer}");
            let gauge = self.metrics.waiting.with_label_values(&[&name]);
            gauge.set(bytes as i64);
        }
        self.metrics.text()
    }

    fn answer(&self, request: &Request<Body>) -> Response<Body> {
        if request.method() != Method::GET {
            return told(StatusCode::METHOD_NOT_ALLOWED, "text/plain", "only GET\n");
        }
        match request.uri().path() {
            "/status" => told(StatusCode::OK, "application/json", self.json().to_string()),
            "/metrics" => match self.metrics() {
                Ok(text) => told(StatusCode::OK, "text/plain; version=0.0.4", text),
                Err(error) => told(
                    StatusCode::INTERNAL_SERVER_ERROR,
                    "text/plain",
                    format!("{error}\n"),
                ),
            },
            _ => told(StatusCode::NOT_FOUND, "text/plain", "nothing is here\n"),
        }
    }
}

/// A response of this status, type and text.
pub fn told(status: StatusCode, kind: &'static str, text: impl Into<Body>) -> Response<Body> {
    let mut response = Response::new(text.into());
    *response.status_mut() = status;
    let kind = header::HeaderValue::from_static(kind);
    response.headers_mut().insert(header::CONTENT_TYPE, kind);
    response
}

/// A connection that ends where nothing was read or written for so long: who is silent, or takes nothing in, keeps nobody's place.
struct Watched {
    stream: TcpStream,
    silence: Duration,
    end: Pin<Box<Sleep>>,
}

impl Watched {
    fn new(stream: TcpStream, silence: Duration) -> Watched {
        Watched {
            stream,
            silence,
            end: Box::pin(sleep(silence)),
        }
    }

    /// What came of reading or writing, or that it took too long.
    fn watch<T>(
        mut self: Pin<&mut Self>,
        context: &mut Context<'_>,
        go_on: impl FnOnce(Pin<&mut TcpStream>, &mut Context<'_>) -> Poll<io::Result<T>>,
    ) -> Poll<io::Result<T>> {
        let gone = go_on(Pin::new(&mut self.stream), context);
        if gone.is_ready() {
            let end = tokio::time::Instant::now() + self.silence;
            self.end.as_mut().reset(end);
            return gone;
        }
        let ended = self.end.as_mut().poll(context);
        ended.map(|()| Err(io::ErrorKind::TimedOut.into()))
    }
}

impl AsyncRead for Watched {
    fn poll_read(
        self: Pin<&mut Self>,
        context: &mut Context<'_>,
        buffer: &mut ReadBuf<'_>,
    ) -> Poll<io::Result<()>> {
        self.watch(context, |stream, context| stream.poll_read(context, buffer))
    }
}

impl AsyncWrite for Watched {
    fn poll_write(
        self: Pin<&mut Self>,
        context: &mut Context<'_>,
        bytes: &[u8],
    ) -> Poll<io::Result<usize>> {
        self.watch(context, |stream, context| stream.poll_write(context, bytes))
    }

    fn poll_flush(self: Pin<&mut Self>, context: &mut Context<'_>) -> Poll<io::Result<()>> {
        self.watch(context, |stream, context| stream.poll_flush(context))
    }

    fn poll_shutdown(self: Pin<&mut Self>, context: &mut Context<'_>) -> Poll<io::Result<()>> {
        self.watch(context, |stream, context| stream.poll_shutdown(context))
    }
}

/// Answers on this address, at most so many connections at a time, for ever. One that is silent for so long ends.
pub async fn serve(
    listener: TcpListener,
    connections: usize,
    silence: Duration,
    member: Told,
    routes: Option<Arc<dyn Routes>>,
) {
    let room = Arc::new(Semaphore::new(connections));
    loop {
        let Ok(permit) = room.clone().acquire_owned().await else {
            return;
        };
        let Ok((stream, _)) = listener.accept().await else {
            tokio::time::sleep(Duration::from_millis(50)).await;
            continue;
        };
        // A small answer doesn't wait for more to send; where this can't be had it is only slower.
        let _ = stream.set_nodelay(true);
        let (member, routes) = (member.clone(), routes.clone());
        tokio::spawn(async move {
            let service = service_fn(move |request| {
                let answer = answer(&member, routes.as_deref(), request);
                async move { Ok::<_, Infallible>(answer.await) }
            });
            let mut http = Http::new();
            http.http1_only(true);
            let stream = Watched::new(stream, silence);
            if let Err(told) = http.serve_connection(stream, service).await {
                debug!(%told, "a connection of HTTP ended");
            }
            drop(permit);
        });
    }
}

fn answer(member: &Told, routes: Option<&dyn Routes>, request: Request<Body>) -> Answer {
    let request = match routes {
        Some(routes) => match routes.answer(request, member) {
            Ok(answer) => return answer,
            Err(back) => *back,
        },
        None => request,
    };
    let response = member.answer(&request);
    Box::pin(async move { response })
}
