//! What comes to a member's ports from those who mean it no good: refused, counted, logged once, and the committee goes on.

mod common;

use common::{Committee, patience, until};
use std::io::{Read, Write};
use std::net::{Shutdown, SocketAddr, TcpListener, TcpStream};
use std::sync::Arc;
use std::thread;
use std::time::{Duration, Instant};
use tokio::io::{AsyncReadExt, AsyncWriteExt};
use tokio_rustls::client::TlsStream;
use voumlis_core::committee::{Committee as Keys, SecretKey};
use voumlis_core::envelope::{Sealed, Sealer};
use voumlis_core::frame::Frame;
use voumlis_core::plain::{BASE, attestation};
use voumlis_core::wire::{Attestation, Channel, On, Round, Vote, VoteKind};
use voumlisd::settings::Limits;
use voumlisd::tls;

/// A connection to a member, by TLS with this key, up to the greeting.
async fn dial(
    keys: &Keys,
    key: &SecretKey,
    to: u32,
    address: SocketAddr,
) -> std::io::Result<TlsStream<tokio::net::TcpStream>> {
    let connector = tls::connector(keys, key, to).unwrap();
    let stream = tokio::net::TcpStream::connect(address).await?;
    connector.connect(tls::any_name(), stream).await
}

/// The greeting of a member of this committee; the listener's number and what it has of this run.
async fn greet(
    stream: &mut TlsStream<tokio::net::TcpStream>,
    hash: &[u8; 32],
    run: u64,
) -> std::io::Result<(u64, u64)> {
    stream.write_all(hash).await?;
    stream.write_u64(run).await?;
    stream.flush().await?;
    Ok((stream.read_u64().await?, stream.read_u64().await?))
}

async fn send(stream: &mut TlsStream<tokio::net::TcpStream>, number: u64, frame: &[u8]) {
    stream.write_u32(frame.len() as u32).await.unwrap();
    stream.write_u64(number).await.unwrap();
    stream.write_all(frame).await.unwrap();
    stream.flush().await.unwrap();
}

/// Whether the member ends the connection.
async fn is_ended(stream: &mut TlsStream<tokio::net::TcpStream>) -> bool {
    let mut rest = Vec::new();
    let read = stream.read_to_end(&mut rest);
    let ended = tokio::time::timeout(patience(), read).await;
    ended.is_ok()
}

fn refused(committee: &Committee, why: &str) -> f64 {
    let name = format!("voumlis_frames_refused_total{{why=\"{why}\"}}");
    committee.metric(0, &name)
}

/// Three of four members, and the key of the fourth.
fn three() -> (Committee, Arc<Keys>, SecretKey) {
    three_with(|_| {})
}

/// The same, whose limits are changed so.
fn three_with(change: impl Fn(&mut Limits)) -> (Committee, Arc<Keys>, SecretKey) {
    let mut committee = Committee::new(4, |settings| {
        settings.limits.strangers = 8;
        change(&mut settings.limits);
    });
    (0..3).for_each(|member| committee.start(member));
    committee.reach(&[0, 1, 2], 2);
    let keys = Arc::new(committee.settings[0].committee().unwrap());
    let key = SecretKey::read(&committee.settings[3].key).unwrap();
    (committee, keys, key)
}

fn go_on(committee: &mut Committee) {
    let there = committee.highest();
    committee.reach(&[0, 1, 2], there + 3);
}

#[test]
fn a_stranger_gets_nowhere() {
    let (mut committee, keys, _) = three();
    let address = committee.settings[0].listen;
    let runtime = tokio::runtime::Runtime::new().unwrap();
    runtime.block_on(async {
        let stranger = SecretKey::generate().unwrap();
        let said = match dial(&keys, &stranger, 0, address).await {
            Ok(mut stream) => greet(&mut stream, keys.hash(), 1).await.map(|_| ()),
            Err(told) => Err(told),
        };
        assert!(said.is_err(), "a key that is no member's was let in");
    });
    let after_key = refused(&committee, "handshake");
    assert!(after_key >= 1.0);
    for garbage in [
        &b"GET / HTTP/1.1\r\n\r\n"[..],
        &[0xff; 4096],
        &[22, 3, 1, 255, 255],
    ] {
        let mut stream = TcpStream::connect(address).unwrap();
        // It may have hung up before all was written.
        let _ = stream.write_all(garbage);
        let _ = stream.shutdown(Shutdown::Write);
        let _ = stream.read_to_end(&mut Vec::new());
    }
    until("garbage is counted", || {
        (refused(&committee, "handshake") >= after_key + 3.0).then_some(())
    });
    // Connections that say nothing: more of them than there is room for keep no member away.
    let silent: Vec<TcpStream> = (0..40)
        .map(|_| TcpStream::connect(address).unwrap())
        .collect();
    until("strangers are counted", || {
        (refused(&committee, "strangers") >= 1.0).then_some(())
    });
    go_on(&mut committee);
    drop(silent);
    let logged = committee.log(0).matches("why=\"handshake\"").count();
    assert_eq!(logged, 1, "{}", committee.log(0));
}

/// Carries one connection to this address, and gives what the dialer sent once it has hung up.
fn tap(to: SocketAddr) -> (SocketAddr, thread::JoinHandle<Vec<u8>>) {
    let listener = TcpListener::bind("127.0.0.1:0").unwrap();
    let address = listener.local_addr().unwrap();
    let tapped = thread::spawn(move || {
        let (mut dialer, _) = listener.accept().unwrap();
        let mut member = TcpStream::connect(to).unwrap();
        let (mut back, mut forth) = (member.try_clone().unwrap(), dialer.try_clone().unwrap());
        thread::spawn(move || std::io::copy(&mut back, &mut forth));
        let (mut sent, mut piece) = (Vec::new(), [0; 4096]);
        while let Ok(size @ 1..) = dialer.read(&mut piece) {
            sent.extend(&piece[..size]);
            member.write_all(&piece[..size]).unwrap();
        }
        let _ = member.shutdown(Shutdown::Both);
        sent
    });
    (address, tapped)
}

#[test]
fn a_handshake_that_is_played_again_lets_nobody_in() {
    let (mut committee, keys, key) = three();
    let address = committee.settings[0].listen;
    let (tapped_at, tapped) = tap(address);
    let runtime = tokio::runtime::Runtime::new().unwrap();
    runtime.block_on(async {
        let mut stream = dial(&keys, &key, 0, tapped_at).await.unwrap();
        assert_eq!(greet(&mut stream, keys.hash(), 1).await.unwrap().1, 0);
        stream.shutdown().await.unwrap();
    });
    drop(runtime);
    let sent = tapped.join().unwrap();
    assert!(sent.len() > 500, "{}", sent.len());
    let before = refused(&committee, "handshake");
    let mut again = TcpStream::connect(address).unwrap();
    again.write_all(&sent).unwrap();
    let mut answered = Vec::new();
    let _ = again.read_to_end(&mut answered);
    until("it is refused", || {
        (refused(&committee, "handshake") > before).then_some(())
    });
    go_on(&mut committee);
}

#[test]
fn a_member_that_breaks_the_form_or_forges_is_let_go() {
    let (mut committee, keys, key) = three();
    let address = committee.settings[0].listen;
    let runtime = tokio::runtime::Runtime::new().unwrap();
    runtime.block_on(async {
        // Of another committee: the same key, but another hash.
        let mut stream = dial(&keys, &key, 0, address).await.unwrap();
        assert!(greet(&mut stream, &[7; 32], 1).await.is_err());

        let mut stream = dial(&keys, &key, 0, address).await.unwrap();
        assert_eq!(greet(&mut stream, keys.hash(), 2).await.unwrap().1, 0);
        stream.write_u32(1 << 31).await.unwrap();
        stream.flush().await.unwrap();
        assert!(is_ended(&mut stream).await);
        assert_eq!(refused(&committee, "frame-length"), 1.0);

        let mut stream = dial(&keys, &key, 0, address).await.unwrap();
        greet(&mut stream, keys.hash(), 3).await.unwrap();
        send(&mut stream, 1, &[250, 1, 2, 3]).await;
        assert!(is_ended(&mut stream).await);
        assert_eq!(refused(&committee, "frame"), 1.0);

        // A vote in the name of member 1, with a signature of member 3.
        let key = SecretKey::of_seed(*key.seed()).unwrap();
        let on = On::Round(Round { epoch: 0, view: 1 });
        let hash = attestation(BASE, VoteKind::Nullify, &on, 1);
        let vote = Vote {
            kind: VoteKind::Nullify,
            on,
            attestation: Attestation { signer: 1, hash },
        };
        let forged = Frame::Packet(Sealed {
            channel: Channel::Votes,
            plain: vote.bytes(),
            signatures: vec![key.sign(&keys, &hash)],
        });
        let mut stream = dial(&keys, &key, 0, address).await.unwrap();
        greet(&mut stream, keys.hash(), 4).await.unwrap();
        send(&mut stream, 1, &forged.bytes()).await;
        assert!(is_ended(&mut stream).await);
        assert_eq!(refused(&committee, "signature"), 1.0);

        // From now on nothing is taken of it.
        let mut stream = dial(&keys, &key, 0, address).await.unwrap();
        assert!(greet(&mut stream, keys.hash(), 5).await.is_err());
    });
    let status = committee.status(0).unwrap();
    let why = status["blocked"]["3"].as_str().unwrap();
    assert_eq!(why, "a forged signature in the name of 1");
    go_on(&mut committee);
}

#[test]
fn frames_are_taken_once_and_told_again_behind_a_reconnection() {
    let (mut committee, keys, key) = three();
    let address = committee.settings[0].listen;
    let sealer = Sealer::new(keys.clone(), key).unwrap();
    let key = SecretKey::read(&committee.settings[3].key).unwrap();
    let ask = sealer.seal(Channel::Fetches, vec![1]).unwrap().0;
    let ask = Frame::Packet(ask).bytes();
    let runtime = tokio::runtime::Runtime::new().unwrap();
    runtime.block_on(async {
        let mut stream = dial(&keys, &key, 0, address).await.unwrap();
        let (run, last) = greet(&mut stream, keys.hash(), 9).await.unwrap();
        assert_eq!(last, 0);
        send(&mut stream, 1, &ask).await;
        assert_eq!(stream.read_u64().await.unwrap(), 1);
        send(&mut stream, 2, &ask).await;
        assert_eq!(stream.read_u64().await.unwrap(), 2);
        // The same run dials again: it is told what came, and what came before is passed over.
        let mut again = dial(&keys, &key, 0, address).await.unwrap();
        assert_eq!(greet(&mut again, keys.hash(), 9).await.unwrap(), (run, 2));
        send(&mut again, 1, &ask).await;
        assert_eq!(again.read_u64().await.unwrap(), 2);
        send(&mut again, 3, &ask).await;
        assert_eq!(again.read_u64().await.unwrap(), 3);
        // Of two connections of one peer the newer counts: the older ends, though it doesn't fall silent.
        let signs_of_life = async {
            while stream.write_u32(0).await.is_ok() && stream.flush().await.is_ok() {
                tokio::time::sleep(Duration::from_millis(200)).await;
            }
        };
        let ended = tokio::time::timeout(patience(), signs_of_life).await;
        assert!(ended.is_ok(), "the older connection stays");
        // Another run begins anew.
        let mut other = dial(&keys, &key, 0, address).await.unwrap();
        assert_eq!(greet(&mut other, keys.hash(), 10).await.unwrap(), (run, 0));
    });
    go_on(&mut committee);
}

/// Sends these frames in turn, again and again, and waits until so many are acknowledged.
async fn send_until(stream: TlsStream<tokio::net::TcpStream>, frames: Vec<Vec<u8>>, count: u64) {
    let (mut reader, mut writer) = tokio::io::split(stream);
    tokio::spawn(async move {
        for number in 1..=count * 100 {
            let frame = &frames[number as usize % frames.len()];
            writer.write_u32(frame.len() as u32).await?;
            writer.write_u64(number).await?;
            writer.write_all(frame).await?;
            writer.flush().await?;
        }
        Ok::<_, std::io::Error>(writer)
    });
    let mut taken = 0;
    while taken < count {
        let acknowledged = tokio::time::timeout(patience(), reader.read_u64());
        taken = acknowledged.await.expect("frames are taken").unwrap();
    }
}

#[test]
fn a_peer_that_asks_much_waits_and_a_slow_reader_holds_up_nobody() {
    // Few enough that even a busy machine would take more in the time, were it let.
    let (most, a_second, asked): (u32, u32, u64) = (50, 5, 100);
    let (mut committee, keys, key) =
        three_with(|limits| limits.peer_asks = (most.into(), a_second.into()));
    let address = committee.settings[0].listen;
    let runtime = tokio::runtime::Runtime::new().unwrap();
    // Of HTTP: it asks, and reads nothing.
    let mut slow = TcpStream::connect(committee.settings[0].http).unwrap();
    for _ in 0..1000 {
        slow.write_all(b"GET /metrics HTTP/1.1\r\nHost: member\r\n\r\n")
            .unwrap();
        slow.set_write_timeout(Some(Duration::from_millis(200)))
            .unwrap();
    }
    let begun = Instant::now();
    runtime.block_on(async {
        let mut stream = dial(&keys, &key, 0, address).await.unwrap();
        greet(&mut stream, keys.hash(), 1).await.unwrap();
        // Asks for a block that nobody has, each answered with a frame, to a peer that isn't there; and for a certificate.
        let payload = [9; 32];
        let for_blocks = Frame::AskBlocks { payload, above: 0 };
        let sealer = Sealer::new(keys.clone(), key).unwrap();
        let for_certificate = sealer.seal(Channel::Fetches, vec![1]).unwrap().0;
        let asks = vec![for_blocks.bytes(), Frame::Packet(for_certificate).bytes()];
        send_until(stream, asks, asked).await;
    });
    let passed = begun.elapsed();
    let least = Duration::from_secs((asked - u64::from(most)) / u64::from(a_second));
    assert!(passed >= least, "{asked} asks were taken in {passed:?}");
    go_on(&mut committee);
    drop(slow);
}

#[test]
fn connections_of_http_that_are_silent_are_closed_and_keep_nobodys_place() {
    let mut committee = Committee::new(1, |settings| {
        settings.limits.http_connections = 3;
        settings.times.http_silence = 2_000;
    });
    committee.start(0);
    let connect = || TcpStream::connect(committee.settings[0].http).ok();
    let begun: [&[u8]; 3] = [b"", b"GET /status HT", b"POST /keys/a HTTP/1.1\r\nHost:"];
    let silent = begun.map(|bytes| {
        let mut stream = until("it listens", connect);
        stream.write_all(bytes).unwrap();
        stream
    });
    // There is room for three, so this one is answered once they are gone.
    committee.reach(&[0], 1);
    for mut stream in silent {
        stream.set_read_timeout(Some(patience())).unwrap();
        let mut rest = Vec::new();
        // Closed or reset, but not left open.
        match stream.read_to_end(&mut rest) {
            Ok(_) => {}
            Err(told) => assert_eq!(told.kind(), std::io::ErrorKind::ConnectionReset),
        }
    }
}

#[test]
fn a_peer_that_sends_much_waits() {
    let (most, a_second, sent): (u32, u32, u64) = (200_000, 50_000, 35);
    let (mut committee, keys, key) =
        three_with(|limits| limits.peer_bytes = (most.into(), a_second.into()));
    let address = committee.settings[0].listen;
    let runtime = tokio::runtime::Runtime::new().unwrap();
    let frame = Frame::Block(vec![0; 20_000]).bytes();
    let size = frame.len() as u64;
    let begun = Instant::now();
    runtime.block_on(async {
        let mut stream = dial(&keys, &key, 0, address).await.unwrap();
        greet(&mut stream, keys.hash(), 1).await.unwrap();
        send_until(stream, vec![frame], sent).await;
    });
    let passed = begun.elapsed();
    let least = Duration::from_secs((sent * size - u64::from(most)) / u64::from(a_second));
    assert!(passed >= least, "{sent} frames were taken in {passed:?}");
    go_on(&mut committee);
}

#[test]
fn what_listens_with_another_key_is_told_nothing() {
    let (mut committee, keys, _) = three();
    let key = SecretKey::generate().unwrap();
    let acceptor = tls::acceptor(&keys, &key, 3).unwrap();
    let runtime = tokio::runtime::Runtime::new().unwrap();
    runtime.block_on(async {
        let address = committee.settings[3].listen;
        let listener = tokio::net::TcpListener::bind(address).await.unwrap();
        for _ in 0..3 {
            let dialed = tokio::time::timeout(patience(), listener.accept()).await;
            let (stream, _) = dialed.expect("it is dialed").unwrap();
            let shaken = acceptor.accept(stream).await;
            assert!(shaken.is_err(), "a member talks to another key");
        }
    });
    go_on(&mut committee);
}
