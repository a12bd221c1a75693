//! A link between two members that can be cut and slowed: it carries the bytes of TCP connections.

use anyhow::{Context, Result};
use std::net::SocketAddr;
use std::time::Duration;
use tokio::io::{AsyncReadExt, AsyncWriteExt};
use tokio::net::tcp::{OwnedReadHalf, OwnedWriteHalf};
use tokio::net::{TcpListener, TcpStream};
use tokio::sync::{mpsc, watch};
use tokio::task::JoinHandle;
use tokio::time::{Instant, sleep, sleep_until};

/// What happens to the bytes of one direction.
#[derive(Clone, Copy, Debug, Default, PartialEq, Eq)]
pub enum Flow {
    /// They pass.
    #[default]
    Open,
    /// They pass so much later.
    Slow(Duration),
    /// They are kept until this ends: neither side is told, as where a network drops packets.
    Stalled,
}

/// How a link is.
#[derive(Clone, Copy, Debug, Default, PartialEq, Eq)]
pub struct Condition {
    /// From the side that dials.
    pub forth: Flow,
    /// To the side that dials.
    pub back: Flow,
    /// Connections are ended, and new ones taken and ended at once.
    pub is_closed: bool,
}

impl Condition {
    /// The same in both directions.
    pub fn both(flow: Flow) -> Condition {
        Condition {
            forth: flow,
            back: flow,
            is_closed: false,
        }
    }

    /// No connection lives.
    pub fn closed() -> Condition {
        Condition {
            is_closed: true,
            ..Condition::default()
        }
    }
}

/// A listener that hands connections on. Dropped, it ends them.
#[derive(Debug)]
pub struct Proxy {
    address: SocketAddr,
    condition: watch::Sender<Condition>,
    task: JoinHandle<()>,
}

/// Bytes of one read.
const PIECE: usize = 16_384;
/// Pieces that are on their way in one direction of a connection.
const PIECES: usize = 64;

impl Proxy {
    /// Listens on a free port of the loopback, for what dials `target`.
    ///
    /// # Errors
    ///
    /// Where no port is to be had.
    pub async fn start(target: SocketAddr) -> Result<Proxy> {
        let listener = TcpListener::bind(("127.0.0.1", 0))
            .await
            .context("a port for a link")?;
        let address = listener.local_addr()?;
        let (condition, watched) = watch::channel(Condition::default());
        let task = tokio::spawn(accept(listener, target, watched));
        Ok(Proxy {
            address,
            condition,
            task,
        })
    }

    /// Where to dial.
    pub fn address(&self) -> SocketAddr {
        self.address
    }

    /// From now on the link is so.
    pub fn set(&self, condition: Condition) {
        self.condition.send_replace(condition);
    }
}

impl Drop for Proxy {
    fn drop(&mut self) {
        self.task.abort();
        self.set(Condition::closed());
    }
}

async fn accept(listener: TcpListener, target: SocketAddr, condition: watch::Receiver<Condition>) {
    loop {
        match listener.accept().await {
            Ok((dialer, _)) => {
                tokio::spawn(carry(dialer, target, condition.clone()));
            }
            // Too many open files, say: they pass.
            Err(_) => sleep(Duration::from_millis(10)).await,
        }
    }
}

/// Carries one connection until a side ends it, or the link is closed.
async fn carry(dialer: TcpStream, target: SocketAddr, mut condition: watch::Receiver<Condition>) {
    if condition.borrow().is_closed {
        return;
    }
    let Ok(listener) = TcpStream::connect(target).await else {
        return;
    };
    let (from_dialer, to_dialer) = dialer.into_split();
    let (from_listener, to_listener) = listener.into_split();
    let forth = pass(from_dialer, to_listener, condition.clone(), |link| {
        link.forth
    });
    let back = pass(from_listener, to_dialer, condition.clone(), |link| {
        link.back
    });
    let closing = async {
        while !condition.borrow_and_update().is_closed && condition.changed().await.is_ok() {}
    };
    tokio::select! {
        () = forth => {}
        () = back => {}
        () = closing => {}
    }
}

/// Passes one direction on: reading goes on while bytes are on their way, as far as there is room.
async fn pass(
    mut from: OwnedReadHalf,
    mut to: OwnedWriteHalf,
    condition: watch::Receiver<Condition>,
    flow: fn(&Condition) -> Flow,
) {
    let (sender, mut pieces) = mpsc::channel::<(Instant, Vec<u8>)>(PIECES);
    let mut watched = condition.clone();
    let reading = async move {
        let mut piece = vec![0; PIECE];
        while let Ok(count @ 1..) = from.read(&mut piece).await {
            let delay = match flow(&condition.borrow()) {
                Flow::Slow(delay) => delay,
                Flow::Open | Flow::Stalled => Duration::ZERO,
            };
            if sender
                .send((Instant::now() + delay, piece[..count].to_vec()))
                .await
                .is_err()
            {
                return;
            }
        }
    };
    let writing = async move {
        while let Some((due, piece)) = pieces.recv().await {
            sleep_until(due).await;
            while flow(&watched.borrow_and_update()) == Flow::Stalled {
                if watched.changed().await.is_err() {
                    return;
                }
            }
            if to.write_all(&piece).await.is_err() {
                return;
            }
        }
    };
    tokio::join!(reading, writing);
}

#[cfg(test)]
mod tests {
    use super::*;
    use tokio::time::timeout;

    /// A server that sends back what it is sent, and a link to it.
    async fn echo() -> Proxy {
        let listener = TcpListener::bind(("127.0.0.1", 0)).await.unwrap();
        let address = listener.local_addr().unwrap();
        tokio::spawn(async move {
            while let Ok((stream, _)) = listener.accept().await {
                let (mut from, mut to) = stream.into_split();
                tokio::spawn(async move { tokio::io::copy(&mut from, &mut to).await });
            }
        });
        Proxy::start(address).await.unwrap()
    }

    async fn dial(proxy: &Proxy) -> TcpStream {
        TcpStream::connect(proxy.address()).await.unwrap()
    }

    async fn round(stream: &mut TcpStream, bytes: &[u8]) -> Vec<u8> {
        stream.write_all(bytes).await.unwrap();
        let mut back = vec![0; bytes.len()];
        stream.read_exact(&mut back).await.unwrap();
        back
    }

    #[tokio::test]
    async fn bytes_pass_in_order() {
        let proxy = echo().await;
        let mut stream = dial(&proxy).await;
        let bytes: Vec<u8> = (0..300_000u32).map(|at| (at % 251) as u8).collect();
        assert_eq!(round(&mut stream, &bytes).await, bytes);
    }

    #[tokio::test]
    async fn a_slow_link_takes_its_time_each_way() {
        let proxy = echo().await;
        let mut stream = dial(&proxy).await;
        proxy.set(Condition::both(Flow::Slow(Duration::from_millis(60))));
        let start = Instant::now();
        assert_eq!(round(&mut stream, b"a").await, b"a");
        assert!(start.elapsed() >= Duration::from_millis(120));
    }

    #[tokio::test]
    async fn a_stalled_direction_keeps_its_bytes_and_the_other_passes() {
        let proxy = echo().await;
        let mut stream = dial(&proxy).await;
        assert_eq!(round(&mut stream, b"a").await, b"a");
        for condition in [
            Condition {
                forth: Flow::Stalled,
                ..Condition::default()
            },
            Condition {
                back: Flow::Stalled,
                ..Condition::default()
            },
        ] {
            proxy.set(condition);
            let patience = Duration::from_millis(100);
            assert!(timeout(patience, round(&mut stream, b"b")).await.is_err());
            proxy.set(Condition::default());
            let mut back = [0];
            stream.read_exact(&mut back).await.unwrap();
            assert_eq!(&back, b"b");
        }
    }

    #[tokio::test]
    async fn a_closed_link_ends_connections_and_opens_again() {
        let proxy = echo().await;
        let mut stream = dial(&proxy).await;
        assert_eq!(round(&mut stream, b"a").await, b"a");
        proxy.set(Condition::closed());
        let mut rest = Vec::new();
        let _ = stream.read_to_end(&mut rest).await;
        assert!(rest.is_empty());
        let mut refused = dial(&proxy).await;
        let _ = refused.read_to_end(&mut rest).await;
        assert!(rest.is_empty());
        proxy.set(Condition::default());
        assert_eq!(round(&mut dial(&proxy).await, b"c").await, b"c");
    }
}
