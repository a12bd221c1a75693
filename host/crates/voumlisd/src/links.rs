//! The links of one member to its peers, over TCP and TLS.
//!
//! Each member dials each other one and sends on that connection alone; what it hears comes on connections that its peers dialed. The
//! name of a peer is fixed for a connection, by the key that it showed. What goes between:
//!
//! | Who | When | Bytes |
//! |---|---|---|
//! | dialer | first | the committee's hash (32), a number for this run of its process (8) |
//! | listener | then | such a number of its own (8), the last frame that it has of the dialer's run (8) |
//! | dialer | from then on | frames: length (4), number (8), so many bytes; length 0 without more is a sign of life |
//! | listener | from then on | the number of the last frame that it took (8) |
//!
//! Frames are numbered from 1 on, and sent until they are acknowledged; one that came before is passed over. A listener whose number is
//! new has lost what it had: it is told again what is current.

use crate::blocked::BlockList;
use crate::outgoing::Outgoing;
use crate::settings::{Limits, Place};
use crate::tls;
use anyhow::{Context, Result, bail, ensure};
use std::collections::{HashMap, HashSet};
use std::net::{IpAddr, SocketAddr};
use std::sync::atomic::{AtomicU64, Ordering};
use std::sync::{Arc, Mutex};
use std::time::{Duration, Instant};
use tokio::io::{AsyncRead, AsyncReadExt, AsyncWrite, AsyncWriteExt, BufReader, BufWriter, split};
use tokio::net::{TcpListener, TcpStream};
use tokio::sync::{Notify, Semaphore};
use tokio::time::{sleep, timeout};
use tokio_rustls::{TlsAcceptor, TlsConnector};
use tracing::{debug, info, warn};
use voumlis_core::allowance::Allowance;
use voumlis_core::chain::ChainHandle;
use voumlis_core::committee::SecretKey;
use voumlis_core::envelope::{Opened, Refused, Sealed, Sealer};
use voumlis_core::frame::{Frame, LONGEST_FRAME};
use voumlis_core::inbox::Inbox;
use voumlis_core::metrics::Metrics;
use voumlis_core::network::{Current, Letter, Network};
use voumlis_core::wire::Channel;

/// How often a dialer without anything to send gives a sign of life.
const SIGN_OF_LIFE: Duration = Duration::from_secs(3);
/// How long either side waits for the other before it lets the connection go.
const SILENCE: Duration = Duration::from_secs(12);
/// The times between two dials: the first, and the longest.
const REDIAL: (Duration, Duration) = (Duration::from_millis(50), Duration::from_secs(2));
/// How many letters are taken out of a queue at once.
const AT_ONCE: usize = 64;
/// From so many signatures on a packet is verified beside the tasks of the connections.
const MANY_SIGNATURES: usize = 8;

/// What all links of a member share.
pub struct Links {
    me: u32,
    run: u64,
    sealer: Sealer,
    places: Vec<Place>,
    limits: Limits,
    /// How long a connection may take until both sides have shown their keys and said their first words.
    greeting: Duration,
    outgoing: HashMap<u32, Outgoing>,
    current: Arc<Current>,
    inbox: Arc<Inbox>,
    chain: ChainHandle,
    blocked: BlockList,
    metrics: Arc<Metrics>,
    heard: Mutex<HashMap<u32, Heard>>,
    logged: Mutex<HashSet<(String, IpAddr)>>,
    connections: AtomicU64,
    sending: Mutex<HashSet<u32>>,
    bounds: Mutex<HashMap<u32, Bounds>>,
}

/// What came of a peer's process.
#[derive(Default)]
struct Heard {
    run: u64,
    last: u64,
    connection: u64,
    /// Told when the peer has a newer connection.
    newer: Arc<Notify>,
}

/// One connection of a peer that is heard from.
struct Hearing {
    peer: u32,
    from: SocketAddr,
    connection: u64,
    newer: Arc<Notify>,
}

/// What links are made of.
pub struct LinkParts {
    /// The signatures.
    pub sealer: Sealer,
    /// The members' places, in order.
    pub places: Vec<Place>,
    /// What is bounded.
    pub limits: Limits,
    /// How long a connection may take until both sides have shown their keys and said their first words.
    pub greeting: Duration,
    /// What a peer that was away has to hear.
    pub current: Arc<Current>,
    /// Where packets go.
    pub inbox: Arc<Inbox>,
    /// Where what hosts ask of each other goes.
    pub chain: ChainHandle,
    /// Of whom nothing is taken.
    pub blocked: BlockList,
    /// What is counted.
    pub metrics: Arc<Metrics>,
}

impl Links {
    /// The links of the member with this sealer; `run` is a number that no other run of its process had.
    pub fn new(parts: LinkParts, run: u64) -> Links {
        let me = parts.sealer.me;
        let peers = (0..parts.sealer.committee.size()).filter(|peer| *peer != me);
        let queue = || Outgoing::new(parts.limits.queue_bytes, parts.metrics.clone());
        Links {
            me,
            run,
            outgoing: peers.map(|peer| (peer, queue())).collect(),
            sealer: parts.sealer,
            places: parts.places,
            limits: parts.limits,
            greeting: parts.greeting,
            current: parts.current,
            inbox: parts.inbox,
            chain: parts.chain,
            blocked: parts.blocked,
            metrics: parts.metrics,
            heard: Mutex::default(),
            logged: Mutex::default(),
            connections: AtomicU64::new(0),
            sending: Mutex::default(),
            bounds: Mutex::default(),
        }
    }

    /// Dials all peers, and takes their connections, for ever.
    ///
    /// # Errors
    ///
    /// Where no certificate is made.
    pub fn start(self: &Arc<Links>, listener: TcpListener, key: &SecretKey) -> Result<()> {
        for peer in self.outgoing.keys().copied() {
            let connector = tls::connector(&self.sealer.committee, key, peer)?;
            tokio::spawn(self.clone().dial(peer, connector));
        }
        let acceptor = tls::acceptor(&self.sealer.committee, key, self.me)?;
        tokio::spawn(self.clone().accept(listener, acceptor));
        Ok(())
    }

    /// To whom this member is connected, and who is connected to it.
    pub fn peers(&self) -> (Vec<u32>, Vec<u32>) {
        let sending = self.sending.lock().expect("no thread failed with it");
        let heard = self.heard.lock().expect("no thread failed with it");
        let hearing = heard.iter().filter(|(_, heard)| heard.connection != 0);
        let mut both = (
            sending.iter().copied().collect::<Vec<_>>(),
            hearing.map(|(peer, _)| *peer).collect::<Vec<_>>(),
        );
        both.0.sort_unstable();
        both.1.sort_unstable();
        both
    }

    /// How many bytes wait for each peer.
    pub fn waiting(&self) -> Vec<(u32, usize)> {
        let queues = self.outgoing.iter();
        let mut waiting: Vec<_> = queues.map(|(peer, queue)| (*peer, queue.bytes())).collect();
        waiting.sort_unstable();
        waiting
    }

    /// Counts what was refused, and logs the first of each kind and address.
    fn refuse(&self, why: &str, from: SocketAddr, told: &str) {
        self.metrics.frames_refused.with_label_values(&[why]).inc();
        let mut logged = self.logged.lock().expect("no thread failed with it");
        let is_known = logged.len() > 1000 || !logged.insert((why.to_owned(), from.ip()));
        if is_known {
            debug!(why, %from, told, "refused");
        } else {
            warn!(why, %from, told, "refused; more of this kind from there is counted, not logged");
        }
    }

    fn count_bytes(&self, direction: &str, bytes: usize) {
        let counter = self.metrics.network_bytes.with_label_values(&[direction]);
        counter.inc_by(bytes as u64);
    }

    // ---- dialing

    async fn dial(self: Arc<Links>, peer: u32, connector: TlsConnector) {
        let mut pause = REDIAL.0;
        let mut known = None;
        loop {
            let begun = Instant::now();
            let ended = self.carry(peer, &connector, &mut known).await;
            let was_known = self.set_sending(peer, false);
            if let Err(told) = ended {
                if was_known {
                    info!(peer, %told, "the connection to a peer ended");
                } else {
                    debug!(peer, %told, "a peer isn't reached");
                }
            }
            if begun.elapsed() > self.greeting {
                pause = REDIAL.0;
            }
            sleep(pause).await;
            pause = (pause * 2).min(REDIAL.1);
        }
    }

    fn set_sending(&self, peer: u32, is_sending: bool) -> bool {
        let mut sending = self.sending.lock().expect("no thread failed with it");
        let was = if is_sending {
            sending.insert(peer)
        } else {
            sending.remove(&peer)
        };
        let gauge = self.metrics.peers.with_label_values(&["sending"]);
        gauge.set(sending.len() as i64);
        was
    }

    /// One connection to a peer, until it ends. `known` is the run of the peer's process that was spoken to last.
    async fn carry(
        &self,
        peer: u32,
        connector: &TlsConnector,
        known: &mut Option<u64>,
    ) -> Result<()> {
        let address = self.places[peer as usize].address;
        let stream = timeout(self.greeting, async {
            let stream = TcpStream::connect(address).await?;
            stream.set_nodelay(true)?;
            connector.connect(tls::any_name(), stream).await
        });
        let (reader, writer) = split(stream.await.context("dialing takes too long")??);
        let (mut reader, mut writer) = (BufReader::new(reader), BufWriter::new(writer));
        writer.write_all(self.sealer.committee.hash()).await?;
        writer.write_u64(self.run).await?;
        writer.flush().await?;
        let welcome = timeout(self.greeting, async {
            Ok::<_, std::io::Error>((reader.read_u64().await?, reader.read_u64().await?))
        });
        let (run, last) = welcome.await.context("no welcome")??;
        let queue = &self.outgoing[&peer];
        queue.acknowledged(last);
        if known.replace(run) != Some(run) {
            queue.forget_superseded();
            queue.push_missing(self.current.letters());
        }
        self.set_sending(peer, true);
        info!(peer, "connected to a peer");
        tokio::select! {
            ended = self.pump(queue, last, &mut writer) => ended,
            ended = hear_acknowledgements(queue, &mut reader) => ended,
        }
    }

    async fn pump(
        &self,
        queue: &Outgoing,
        mut sent: u64,
        writer: &mut (impl AsyncWrite + Unpin),
    ) -> Result<()> {
        loop {
            match timeout(SIGN_OF_LIFE, queue.behind(sent, AT_ONCE)).await {
                Ok(letters) => {
                    for one in letters {
                        let bytes = &one.letter.bytes;
                        writer.write_u32(bytes.len() as u32).await?;
                        writer.write_u64(one.number).await?;
                        writer.write_all(bytes).await?;
                        self.count_bytes("out", 12 + bytes.len());
                        sent = one.number;
                    }
                }
                Err(_) => writer.write_u32(0).await?,
            }
            timeout(SILENCE, writer.flush())
                .await
                .context("it takes nothing in")??;
        }
    }

    // ---- listening

    async fn accept(self: Arc<Links>, listener: TcpListener, acceptor: TlsAcceptor) {
        // Who floods from elsewhere takes no room from those who dial from members' addresses.
        let strangers = Arc::new(Semaphore::new(self.limits.strangers));
        let neighbours = Arc::new(Semaphore::new(self.limits.strangers));
        loop {
            let Ok((stream, from)) = listener.accept().await else {
                // Too many files are open: a pause, in which some are closed.
                sleep(REDIAL.0).await;
                continue;
            };
            let room = if self.is_neighbour(from.ip()) {
                &neighbours
            } else {
                &strangers
            };
            let Ok(permit) = room.clone().try_acquire_owned() else {
                self.refuse("strangers", from, "too many connections that show no key");
                continue;
            };
            let (links, acceptor) = (self.clone(), acceptor.clone());
            tokio::spawn(async move {
                let greeted = timeout(links.greeting, links.greet(stream, &acceptor)).await;
                drop(permit);
                match greeted {
                    Ok(Ok((peer, stream))) => links.hear_from(peer, from, stream).await,
                    Ok(Err(told)) => links.refuse("handshake", from, &format!("{told:#}")),
                    Err(_) => links.refuse("handshake", from, "it takes too long"),
                }
            });
        }
    }

    /// Whether a member is to be reached at this address.
    fn is_neighbour(&self, address: IpAddr) -> bool {
        self.places
            .iter()
            .any(|place| place.address.ip() == address)
    }

    /// The peer that dialed, by the key that it showed, and its connection; it is of this committee.
    async fn greet(
        &self,
        stream: TcpStream,
        acceptor: &TlsAcceptor,
    ) -> Result<(Greeted, tokio_rustls::server::TlsStream<TcpStream>)> {
        stream.set_nodelay(true)?;
        let mut stream = acceptor.accept(stream).await?;
        let shown = stream.get_ref().1.peer_certificates();
        let certificate = shown.and_then(|all| all.first()).context("no key")?;
        let peer = tls::member_of(&self.sealer.committee, certificate).context("no member")?;
        let mut hash = [0; 32];
        stream.read_exact(&mut hash).await?;
        ensure!(
            hash == *self.sealer.committee.hash(),
            "it is of another committee"
        );
        let run = stream.read_u64().await?;
        ensure!(!self.blocked.has(peer), "member {peer} is blocked");
        Ok((Greeted { peer, run }, stream))
    }

    async fn hear_from(
        self: Arc<Links>,
        greeted: Greeted,
        from: SocketAddr,
        stream: tokio_rustls::server::TlsStream<TcpStream>,
    ) {
        let peer = greeted.peer;
        let connection = self.connections.fetch_add(1, Ordering::Relaxed) + 1;
        let (last, newer) = self.begin_hearing(&greeted, connection);
        let hearing = Hearing {
            peer,
            from,
            connection,
            newer,
        };
        let ended = self.hear(&hearing, last, stream).await;
        self.end_hearing(peer, connection);
        if let Err(told) = ended {
            debug!(
                peer,
                told = format!("{told:#}"),
                "the connection of a peer ended"
            );
        }
    }

    /// The last frame that came of this run, and what tells when the peer has a newer connection. The one before is told now.
    fn begin_hearing(&self, greeted: &Greeted, connection: u64) -> (u64, Arc<Notify>) {
        let mut heard = self.heard.lock().expect("no thread failed with it");
        let entry = heard.entry(greeted.peer).or_default();
        entry.newer.notify_one();
        if entry.run != greeted.run {
            entry.run = greeted.run;
            entry.last = 0;
        }
        entry.connection = connection;
        entry.newer = Arc::default();
        let (last, newer) = (entry.last, entry.newer.clone());
        self.count_hearing(&heard);
        (last, newer)
    }

    fn end_hearing(&self, peer: u32, connection: u64) {
        let mut heard = self.heard.lock().expect("no thread failed with it");
        if let Some(entry) = heard.get_mut(&peer)
            && entry.connection == connection
        {
            entry.connection = 0;
        }
        self.count_hearing(&heard);
    }

    fn count_hearing(&self, heard: &HashMap<u32, Heard>) {
        let count = heard.values().filter(|heard| heard.connection != 0).count();
        let gauge = self.metrics.peers.with_label_values(&["hearing"]);
        gauge.set(count as i64);
    }

    /// Whether this connection is the peer's last one, and this frame comes behind those that came; if so it is taken now.
    fn is_next(&self, peer: u32, connection: u64, number: u64) -> Result<bool> {
        let mut heard = self.heard.lock().expect("no thread failed with it");
        let entry = heard.entry(peer).or_default();
        ensure!(
            entry.connection == connection,
            "the peer has a newer connection"
        );
        let is_next = number > entry.last;
        entry.last = entry.last.max(number);
        Ok(is_next)
    }

    async fn hear(
        &self,
        hearing: &Hearing,
        last: u64,
        stream: tokio_rustls::server::TlsStream<TcpStream>,
    ) -> Result<()> {
        let (peer, from) = (hearing.peer, hearing.from);
        let (reader, writer) = split(stream);
        let (mut reader, mut writer) = (
            BufReader::new(reader),
            BufWriter::with_capacity(8 * AT_ONCE, writer),
        );
        writer.write_u64(self.run).await?;
        writer.write_u64(last).await?;
        writer.flush().await?;
        let mut taken = last;
        loop {
            let reading = timeout(SILENCE, self.read_frame(peer, from, &mut reader));
            let read = tokio::select! {
                read = reading => read.context("it says nothing")??,
                // What was taken is put in first, so this is looked at between frames alone.
                () = hearing.newer.notified() => bail!("the peer has a newer connection"),
            };
            if let Some((number, bytes)) = read {
                let wait = self.wait_for(peer, &bytes);
                if !wait.is_zero() {
                    // Nothing more is read from it, so what it sends waits at the peer. It hears first what came until now.
                    timeout(SILENCE, writer.flush()).await.context("slow")??;
                    sleep(wait).await;
                }
                if self.is_next(peer, hearing.connection, number)? {
                    self.take(peer, from, bytes).await?;
                }
                taken = taken.max(number);
            }
            writer.write_u64(taken).await?;
            if reader.buffer().is_empty() {
                timeout(SILENCE, writer.flush()).await.context("slow")??;
            }
        }
    }

    /// How long to wait until the peer may have sent this.
    fn wait_for(&self, peer: u32, bytes: &[u8]) -> Duration {
        let now = Instant::now();
        let mut all = self.bounds.lock().expect("no thread failed with it");
        let bounds = all.entry(peer).or_insert_with(|| Bounds::new(&self.limits));
        let wait = bounds.bytes.take_and_wait(now, bytes.len() as f64);
        if !is_ask(bytes) {
            return wait;
        }
        wait.max(bounds.asks.take_and_wait(now, 1.0))
    }

    /// The next frame with its number, or nothing for a sign of life.
    async fn read_frame(
        &self,
        peer: u32,
        from: SocketAddr,
        reader: &mut (impl AsyncRead + Unpin),
    ) -> Result<Option<(u64, Vec<u8>)>> {
        let size = reader.read_u32().await? as usize;
        if size == 0 {
            return Ok(None);
        }
        if size > LONGEST_FRAME {
            self.refuse(
                "frame-length",
                from,
                &format!("member {peer}, {size} bytes"),
            );
            bail!("a frame of {size} bytes");
        }
        let number = reader.read_u64().await?;
        let mut bytes = vec![0; size];
        reader.read_exact(&mut bytes).await?;
        self.count_bytes("in", 12 + size);
        Ok(Some((number, bytes)))
    }

    async fn take(&self, peer: u32, from: SocketAddr, bytes: Vec<u8>) -> Result<()> {
        ensure!(!self.blocked.has(peer), "member {peer} is blocked");
        match Frame::read(&bytes) {
            Ok(Frame::Packet(sealed)) => self.take_packet(peer, from, sealed).await,
            Ok(frame) => {
                if !self.chain.hear(peer, frame, bytes.len()) {
                    self.metrics.dropped.with_label_values(&["chain"]).inc();
                }
                Ok(())
            }
            Err(told) => {
                self.refuse("frame", from, &format!("member {peer}: {told}"));
                bail!("no frame: {told}")
            }
        }
    }

    async fn take_packet(&self, peer: u32, from: SocketAddr, sealed: Sealed) -> Result<()> {
        let opened = if sealed.signatures.len() < MANY_SIGNATURES {
            self.sealer.open(sealed)
        } else {
            tokio::task::block_in_place(|| self.sealer.open(sealed))
        };
        match opened {
            Ok(opened) => {
                self.put_in(peer, opened).await;
                Ok(())
            }
            Err(refused) => {
                self.refuse(refused.name(), from, &format!("member {peer}: {refused:?}"));
                self.block(peer, &why(refused));
                bail!("{refused:?}")
            }
        }
    }

    /// Puts a packet into the inbox, and waits where this peer's queue is full: what comes behind waits at the peer.
    async fn put_in(&self, peer: u32, mut opened: Opened) {
        let mut is_counted = false;
        while let Err(back) = self.inbox.offer(peer, opened) {
            opened = *back;
            if !is_counted {
                self.metrics
                    .dropped
                    .with_label_values(&["inbox-full"])
                    .inc();
                is_counted = true;
            }
            sleep(Duration::from_millis(2)).await;
        }
    }
}

fn why(refused: Refused) -> String {
    match refused {
        Refused::Unreadable => "a packet that can't be read".to_owned(),
        Refused::Count => "a packet with too few or too many signatures".to_owned(),
        Refused::Signature(signer) => format!("a forged signature in the name of {signer}"),
    }
}

/// Who dialed.
struct Greeted {
    peer: u32,
    run: u64,
}

/// What a peer may cause, over all its connections.
struct Bounds {
    bytes: Allowance,
    asks: Allowance,
}

impl Bounds {
    fn new(limits: &Limits) -> Bounds {
        Bounds {
            bytes: Allowance::new(limits.peer_bytes.0, limits.peer_bytes.1),
            asks: Allowance::new(limits.peer_asks.0, limits.peer_asks.1),
        }
    }
}

/// Whether a frame asks for something longer than itself.
fn is_ask(bytes: &[u8]) -> bool {
    match bytes {
        [0, channel, ..] => *channel == Channel::Fetches as u8,
        [kind, ..] => matches!(kind, 2 | 4 | 6),
        [] => false,
    }
}

async fn hear_acknowledgements(
    queue: &Outgoing,
    reader: &mut (impl AsyncRead + Unpin),
) -> Result<()> {
    loop {
        let number = timeout(SILENCE, reader.read_u64()).await;
        queue.acknowledged(number.context("it says nothing")??);
    }
}

impl Network for Links {
    fn send(&self, to: u32, letter: Letter) {
        if let Some(queue) = self.outgoing.get(&to) {
            queue.push(letter);
        }
    }

    fn send_to_all(&self, letter: Letter) {
        for queue in self.outgoing.values() {
            queue.push(letter.clone());
        }
    }

    fn block(&self, member: u32, why: &str) {
        self.blocked.add(member, why);
    }

    fn finalized(&self, view: u64) {
        for queue in self.outgoing.values() {
            queue.finalized(view);
        }
    }
}
