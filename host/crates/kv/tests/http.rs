//! The store over HTTP, on a committee of one that makes a block final as soon as it is built.

use application::{Application, Block, BlockId, Context};
use hyper::service::{make_service_fn, service_fn};
use hyper::{Body, Client, Request, Response, Server, StatusCode};
use kv::machine::Limits;
use kv::store::{Clients, Store};
use serde_json::{Value, json};
use std::convert::Infallible;
use std::net::SocketAddr;
use std::sync::Arc;
use std::sync::atomic::{AtomicBool, Ordering};
use std::thread;
use std::time::Duration;

/// A store with its server. The blocks stop when this is dropped.
struct Solo {
    address: SocketAddr,
    clients: Clients,
    runs: Arc<AtomicBool>,
}

impl Drop for Solo {
    fn drop(&mut self) {
        self.runs.store(false, Ordering::SeqCst);
    }
}

/// Builds a block whenever there is something to build, and makes it final, as long as `runs`.
fn make_blocks(mut store: Store, runs: &AtomicBool) {
    let mut parent = BlockId::GENESIS;
    while runs.load(Ordering::SeqCst) {
        if !store.has_work() {
            thread::sleep(Duration::from_millis(1));
            continue;
        }
        let context = Context {
            view: parent.view + 1,
            leader: 0,
            parent,
        };
        let contents = store.build(&context, &[]).expect("there is always a block");
        assert!(store.verify(&context, &[], &contents));
        let id = BlockId {
            view: context.view,
            payload: [context.view as u8; 32],
        };
        store.finalized(&Block {
            id,
            parent,
            contents,
        });
        parent = id;
    }
}

impl Solo {
    fn start(makes_blocks: bool) -> Solo {
        let store = Store::new(Limits::default());
        let clients = store.clients();
        let runs = Arc::new(AtomicBool::new(makes_blocks));
        let its = Arc::clone(&runs);
        thread::spawn(move || make_blocks(store, &its));
        let served = clients.clone();
        let service = make_service_fn(move |_| {
            let clients = served.clone();
            let answer = move |request| {
                let clients = clients.clone();
                async move { Ok::<_, Infallible>(kv::http::answer(&clients, request).await) }
            };
            async move { Ok::<_, Infallible>(service_fn(answer)) }
        });
        let server = Server::bind(&SocketAddr::from(([127, 0, 0, 1], 0))).serve(service);
        let address = server.local_addr();
        tokio::spawn(server);
        Solo {
            address,
            clients,
            runs,
        }
    }

    async fn ask(&self, method: &str, path: &str, headers: &[(&str, &str)], body: Body) -> Told {
        let mut request = Request::builder()
            .method(method)
            .uri(format!("http://{}{path}", self.address));
        for (name, value) in headers {
            request = request.header(*name, *value);
        }
        Told::of(
            Client::new()
                .request(request.body(body).unwrap())
                .await
                .unwrap(),
        )
        .await
    }

    async fn get(&self, path: &str) -> Told {
        self.ask("GET", path, &[], Body::empty()).await
    }

    async fn put(&self, path: &str, value: &str) -> Told {
        self.ask("PUT", path, &[], value.to_owned().into()).await
    }

    async fn swap(&self, path: &str, said: Value) -> Told {
        let headers = [("content-type", "application/json")];
        self.ask("POST", path, &headers, said.to_string().into())
            .await
    }
}

/// An answer: its status, its headers of the store, and its body.
struct Told {
    status: StatusCode,
    view: Option<u64>,
    read: Option<String>,
    body: Vec<u8>,
}

impl Told {
    async fn of(response: Response<Body>) -> Told {
        let header = |name: &str| {
            response
                .headers()
                .get(name)
                .map(|value| value.to_str().unwrap().to_owned())
        };
        let view = header("voumlis-view").map(|text| text.parse().unwrap());
        let (status, read) = (response.status(), header("voumlis-read"));
        let body = hyper::body::to_bytes(response.into_body())
            .await
            .unwrap()
            .to_vec();
        Told {
            status,
            view,
            read,
            body,
        }
    }

    fn json(&self) -> Value {
        serde_json::from_slice(&self.body).unwrap()
    }

    fn outcome(&self) -> (u16, String) {
        (
            self.status.as_u16(),
            self.json()["outcome"].as_str().unwrap().to_owned(),
        )
    }
}

fn outcome(status: u16, word: &str) -> (u16, String) {
    (status, word.to_owned())
}

#[tokio::test]
async fn a_value_is_put_read_and_deleted() {
    let solo = Solo::start(true);
    let absent = solo.get("/keys/a").await;
    assert_eq!(
        (absent.status, absent.body.len()),
        (StatusCode::NOT_FOUND, 0)
    );
    assert_eq!(
        solo.put("/keys/a", "one").await.outcome(),
        outcome(200, "written")
    );
    let read = solo.get("/keys/a").await;
    assert_eq!((read.status, &read.body[..]), (StatusCode::OK, &b"one"[..]));
    assert_eq!(read.read.as_deref(), Some("log"));
    let deleted = solo.ask("DELETE", "/keys/a", &[], Body::empty()).await;
    assert_eq!(deleted.outcome(), outcome(200, "written"));
    assert_eq!(solo.get("/keys/a").await.status, StatusCode::NOT_FOUND);
}

#[tokio::test]
async fn a_compare_and_set_takes_texts_digits_and_none() {
    let solo = Solo::start(true);
    let from_none = solo
        .swap("/keys/a", json!({"expected": null, "new": "one"}))
        .await;
    assert_eq!(from_none.outcome(), outcome(200, "written"));
    let again = solo
        .swap("/keys/a", json!({"expected": null, "new": "two"}))
        .await;
    assert_eq!(again.outcome(), outcome(412, "mismatch"));
    let digits = json!({"expected": {"hex": "6f6e65"}, "new": {"hex": "00ff"}});
    assert_eq!(
        solo.swap("/keys/a", digits).await.outcome(),
        outcome(200, "written")
    );
    assert_eq!(solo.get("/keys/a").await.body, [0, 255]);
    for bad in [
        json!({"new": "x"}),
        json!({"expected": null}),
        json!({"expected": null, "new": "x", "more": 1}),
        json!({"expected": {"hex": "0"}, "new": null}),
        json!({"expected": 1, "new": null}),
    ] {
        assert_eq!(
            solo.swap("/keys/a", bad).await.outcome(),
            outcome(400, "refused")
        );
    }
    let text = r#"{"expected": null, "new": "x"}"#;
    let untyped = solo.ask("POST", "/keys/a", &[], text.into()).await;
    assert_eq!(untyped.outcome(), outcome(415, "refused"));
}

#[tokio::test]
async fn a_request_that_comes_again_is_carried_out_once() {
    let solo = Solo::start(true);
    let client = "ab".repeat(16);
    let as_number = |number: &'static str| {
        [
            ("voumlis-client", client.clone()),
            ("voumlis-number", number.to_owned()),
        ]
    };
    let put = |number, value: &'static str| {
        let (solo, headers) = (&solo, as_number(number));
        async move {
            let headers = headers
                .each_ref()
                .map(|(name, value)| (*name, value.as_str()));
            solo.ask("PUT", "/keys/a", &headers, value.into()).await
        }
    };
    let first = put("1", "one").await;
    solo.put("/keys/a", "other").await;
    assert_eq!(put("1", "one").await.json(), first.json());
    assert_eq!(solo.get("/keys/a").await.body, b"other");
    assert_eq!(put("1", "two").await.outcome(), outcome(409, "conflict"));
    assert_eq!(put("5", "five").await.outcome(), outcome(200, "written"));
    assert_eq!(put("4", "four").await.outcome(), outcome(409, "superseded"));
    assert_eq!(put("0", "none").await.outcome(), outcome(400, "refused"));
    let half = solo
        .ask("PUT", "/keys/a", &[("voumlis-number", "1")], "x".into())
        .await;
    assert_eq!(half.outcome(), outcome(400, "refused"));
    let headers = [
        ("voumlis-client", "cd".repeat(16)),
        ("voumlis-number", "2".to_owned()),
    ];
    let headers = headers
        .each_ref()
        .map(|(name, value)| (*name, value.as_str()));
    let late = solo.ask("PUT", "/keys/a", &headers, "x".into()).await;
    assert_eq!(late.outcome(), outcome(409, "unknown_client"));
    assert_eq!(solo.get("/keys/a").await.body, b"five");
}

#[tokio::test]
async fn a_local_read_says_so_and_can_wait_for_a_view() {
    let solo = Solo::start(true);
    let view = solo.put("/keys/a", "one").await.json()["view"]
        .as_u64()
        .unwrap();
    let local = solo.get("/keys/a?local").await;
    assert_eq!(
        (local.read.as_deref(), &local.body[..]),
        (Some("local"), &b"one"[..])
    );
    assert_eq!(local.view, Some(view));
    let early = solo
        .get(&format!("/keys/a?local&after={}&within=20", view + 1))
        .await;
    assert_eq!(early.outcome(), outcome(504, "unknown"));
    let later = format!("/keys/a?local&after={}", view + 1);
    let (waited, _) = tokio::join!(solo.get(&later), async {
        tokio::time::sleep(Duration::from_millis(50)).await;
        solo.put("/keys/b", "two").await
    });
    assert_eq!(
        (waited.status, waited.view),
        (StatusCode::OK, Some(view + 1))
    );
}

#[tokio::test]
async fn history_is_by_view() {
    let solo = Solo::start(true);
    let mut views = Vec::new();
    for value in ["one", "two"] {
        views.push(
            solo.put("/keys/a", value).await.json()["view"]
                .as_u64()
                .unwrap(),
        );
    }
    solo.ask("DELETE", "/keys/a", &[], Body::empty()).await;
    let history = solo.get("/history/a").await.json();
    assert_eq!(history["forgotten"], json!(false));
    let texts: Vec<_> = history["versions"]
        .as_array()
        .unwrap()
        .iter()
        .map(|v| v["text"].clone())
        .collect();
    assert_eq!(texts, [json!("one"), json!("two"), json!(null)]);
    assert_eq!(history["versions"][1]["view"], json!(views[1]));
    let before = solo.get(&format!("/keys/a?at={}", views[1] - 1)).await;
    assert_eq!(before.body, b"one");
    assert_eq!(
        solo.get(&format!("/keys/a?at={}", views[0] - 1))
            .await
            .status,
        StatusCode::NOT_FOUND
    );
    let none = solo.get("/history/b").await.json();
    assert_eq!(none["versions"], json!([]));
}

#[tokio::test]
async fn what_got_no_block_is_unknown() {
    let solo = Solo::start(false);
    let told = solo.put("/keys/a?within=20", "x").await;
    assert_eq!(told.outcome(), outcome(504, "unknown"));
    assert_eq!(solo.clients.summary().pending, 0);
}

#[tokio::test]
async fn a_client_that_goes_leaves_nothing_waiting() {
    let solo = Solo::start(false);
    let put = solo.put("/keys/a", "x");
    assert!(
        tokio::time::timeout(Duration::from_millis(300), put)
            .await
            .is_err()
    );
    for _ in 0..200 {
        if solo.clients.summary().pending == 0 {
            return;
        }
        tokio::time::sleep(Duration::from_millis(10)).await;
    }
    panic!("its request still waits");
}

#[tokio::test]
async fn what_is_no_request_is_refused() {
    let solo = Solo::start(true);
    assert_eq!(solo.get("/keys/").await.outcome(), outcome(400, "refused"));
    assert_eq!(
        solo.get("/keys/a/b").await.outcome(),
        outcome(400, "refused")
    );
    assert_eq!(
        solo.get("/keys/a?what").await.outcome(),
        outcome(400, "refused")
    );
    assert_eq!(
        solo.get(&format!("/keys/{}", "k".repeat(513)))
            .await
            .outcome(),
        outcome(400, "refused")
    );
    let patch = solo.ask("PATCH", "/keys/a", &[], Body::empty()).await;
    assert_eq!(patch.outcome(), outcome(405, "refused"));
    assert_eq!(
        solo.put("/history/a", "x").await.outcome(),
        outcome(405, "refused")
    );
    let long = "x".repeat(kv::command::LONGEST_VALUE);
    assert_eq!(
        solo.put("/keys/a", &long).await.outcome(),
        outcome(200, "written")
    );
    assert_eq!(
        solo.put("/keys/a", &format!("{long}x")).await.outcome(),
        outcome(413, "refused")
    );
    let endless = "x".repeat(800_000);
    assert_eq!(
        solo.put("/keys/a", &endless).await.outcome(),
        outcome(413, "refused")
    );
    assert_eq!(solo.get("/nothing").await.status, StatusCode::NOT_FOUND);
}

#[tokio::test]
async fn keys_are_any_bytes() {
    let solo = Solo::start(true);
    solo.put("/keys/a%2Fb%00", "x").await;
    assert_eq!(solo.get("/keys/%61%2fb%00").await.body, b"x");
    assert_eq!(solo.get("/keys/a").await.status, StatusCode::NOT_FOUND);
}

#[tokio::test]
async fn many_clients_share_blocks_and_each_is_answered() {
    let solo = Arc::new(Solo::start(true));
    let tasks: Vec<_> = (0..64)
        .map(|client| {
            let solo = Arc::clone(&solo);
            tokio::spawn(async move {
                let path = format!("/keys/{client}");
                for round in 0..5 {
                    let value = format!("{client}-{round}");
                    assert_eq!(solo.put(&path, &value).await.status, StatusCode::OK);
                    assert_eq!(solo.get(&path).await.body, value.as_bytes());
                }
            })
        })
        .collect();
    for task in tasks {
        task.await.unwrap();
    }
    let chain = solo.get("/chain?after=0").await.json();
    let views: Vec<_> = chain
        .as_array()
        .unwrap()
        .iter()
        .map(|link| link["view"].as_u64().unwrap())
        .collect();
    assert!(
        views.is_sorted() && views.len() < 640,
        "{} blocks",
        views.len()
    );
    assert_eq!(solo.get("/store").await.json()["keys"], json!(64));
}
