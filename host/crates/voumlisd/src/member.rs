//! One member at work: its folder, its threads and its tasks, from the start to a clean stop.

use crate::blocked::BlockList;
use crate::http::{self, Routes, Told};
use crate::links::{LinkParts, Links};
use crate::settings::{RECORD, Settings};
use anyhow::{Context, Result, bail, ensure};
use application::Application;
use ring::rand::{SecureRandom, SystemRandom};
use std::fs::{File, TryLockError};
use std::os::unix::fs::OpenOptionsExt;
use std::path::{Path, PathBuf};
use std::sync::Arc;
use std::thread::{self, JoinHandle};
use std::time::{Duration, Instant};
use tokio::net::TcpListener;
use tokio::signal::unix::{SignalKind, signal};
use tracing::{info, warn};
use voumlis_core::chain::{Chain, ChainHandle, Request, Surroundings};
use voumlis_core::committee::SecretKey;
use voumlis_core::engine::Engine;
use voumlis_core::envelope::Sealer;
use voumlis_core::inbox::Inbox;
use voumlis_core::member::{Child, Member, NodeSettings, Open};
use voumlis_core::metrics::{Metrics, Status};
use voumlis_core::network::{Current, Network};
use voumlis_core::reports::ReportLog;
use voumlis_core::signatures::SignatureFile;

/// Puts another network in the place of a member's links: for trials, which lose and forge what a correct member doesn't.
pub type Wrap = Box<dyn FnOnce(Arc<dyn Network>, Sealer) -> Arc<dyn Network> + Send>;

/// What a member runs.
pub struct Service {
    /// The application.
    pub application: Box<dyn Application>,
    /// What it answers over HTTP.
    pub routes: Option<Arc<dyn Routes>>,
    /// For trials alone; `None` else.
    pub wrap: Option<Wrap>,
    /// Called when the member is to stop: an application that waits for something doesn't wait any more.
    pub at_stop: Option<Box<dyn FnOnce() + Send>>,
}

impl Service {
    /// A service without routes.
    pub fn new(application: impl Application + 'static) -> Service {
        Service {
            application: Box::new(application),
            routes: None,
            wrap: None,
            at_stop: None,
        }
    }

    /// The same with routes.
    pub fn with_routes(self, routes: Arc<dyn Routes>) -> Service {
        Service {
            routes: Some(routes),
            ..self
        }
    }
}

/// How long connections are waited for before the record is opened: what a node says first should not be said into the void.
const SETTLING: Duration = Duration::from_millis(1000);

/// Keeps other processes from this folder for as long as it lives.
struct Lock(#[allow(dead_code, reason = "it is held, not used")] File);

fn lock(folder: &Path) -> Result<Lock> {
    let path = folder.join("lock");
    let mut options = File::options();
    let file = options.write(true).create(true).mode(0o600).open(&path);
    let file = file.with_context(|| path.display().to_string())?;
    match file.try_lock() {
        Ok(()) => Ok(Lock(file)),
        Err(TryLockError::WouldBlock) => bail!(
            "another process runs the member of {}: a second one may vote against it",
            folder.display()
        ),
        Err(TryLockError::Error(error)) => Err(error).context("the lock"),
    }
}

/// How the record is opened.
fn opening(settings: &Settings, folder: &Path, me: u32, members: u32) -> Result<Box<Open>> {
    let (record, node) = (folder.join(RECORD), settings.node.clone());
    if settings.library {
        return library(record, me, members, node);
    }
    let program = settings.tool();
    ensure!(
        program.exists(),
        "there is no program {}: host/up builds one; `tool` of the settings names it where it isn't beside `program`",
        program.display()
    );
    Ok(Box::new(move || {
        let (child, first) = Child::open(&program, &record, me, members, &node)?;
        info!(process = child.id(), "the record is opened by a child");
        Ok((Box::new(child) as Box<dyn Member>, first))
    }))
}

#[cfg(feature = "library")]
fn library(record: PathBuf, me: u32, members: u32, node: NodeSettings) -> Result<Box<Open>> {
    Ok(Box::new(move || {
        let opened = voumlis_core::member::Library::open(&record, me, members, &node);
        let (node, first) = opened?;
        info!("the record is opened in this process");
        Ok((Box::new(node) as Box<dyn Member>, first))
    }))
}

#[cfg(not(feature = "library"))]
fn library(_: PathBuf, _: u32, _: u32, _: NodeSettings) -> Result<Box<Open>> {
    bail!("this host was built without the feature `library`")
}

fn random_number() -> Result<u64> {
    let mut bytes = [0; 8];
    if SystemRandom::new().fill(&mut bytes).is_err() {
        bail!("the system gives no random bytes");
    }
    Ok(u64::from_be_bytes(bytes))
}

/// Why a member's thread ended.
type Ending = Result<()>;

/// A thread that tells that it ended, and how.
fn spawn(
    name: &str,
    over: &tokio::sync::mpsc::UnboundedSender<()>,
    work: impl FnOnce() -> Ending + Send + 'static,
) -> Result<JoinHandle<Ending>> {
    let over = over.clone();
    let builder = thread::Builder::new().name(name.to_owned());
    Ok(builder.spawn(move || {
        let ended = work();
        // Nobody listens any more where the member is stopping.
        let _ = over.send(());
        ended
    })?)
}

/// A thread or task that panics takes the process with it: what they share may be broken, and a member without one of its parts would
/// stand there as if it worked. For its record this is a crash as any other, and whatever runs it starts it again.
fn end_where_a_part_fails() {
    let say = std::panic::take_hook();
    std::panic::set_hook(Box::new(move |panic| {
        say(panic);
        std::process::abort();
    }));
}

/// Runs the member of this folder until a signal says to stop, or it can't go on.
///
/// # Errors
///
/// Where it can't be started, or its node or a file failed.
pub fn run(folder: &Path, make: impl FnOnce(&Settings) -> Result<Service>) -> Result<()> {
    end_where_a_part_fails();
    let settings = Settings::read(folder)?;
    for told in settings.warnings() {
        warn!("{told}");
    }
    let _lock = lock(folder)?;
    let service = make(&settings)?;
    let runtime = tokio::runtime::Builder::new_multi_thread()
        .enable_all()
        .build()?;
    let ended = runtime.block_on(work(folder, settings, service));
    runtime.shutdown_timeout(Duration::from_secs(1));
    ended
}

async fn work(folder: &Path, settings: Settings, service: Service) -> Result<()> {
    let key = SecretKey::read(&settings.key)?;
    let committee = Arc::new(settings.committee()?);
    let sealer = Sealer::new(committee.clone(), SecretKey::of_seed(*key.seed())?)?;
    let me = sealer.me;
    settings.check_named(me)?;
    let metrics = Arc::new(Metrics::new()?);
    let status = Arc::new(Status::default());
    let inbox = Arc::new(Inbox::new(committee.size()));
    let current = Arc::new(Current::default());
    let (chain, requests) = ChainHandle::new(committee.size());
    let verify = sealer.committee.clone();
    let signatures = SignatureFile::open(
        &folder.join("signatures"),
        &sealer.signatures,
        |attestation, signature| verify.verifies(attestation, signature),
    )?;
    let parts = LinkParts {
        sealer: sealer.clone(),
        places: settings.members.clone(),
        limits: settings.limits.clone(),
        greeting: Duration::from_millis(settings.times.greeting),
        current: current.clone(),
        inbox: inbox.clone(),
        chain: chain.clone(),
        blocked: BlockList::open(&folder.join("blocked"), status.clone())?,
        metrics: metrics.clone(),
    };
    let links = Arc::new(Links::new(parts, random_number()?));
    let mut network: Arc<dyn Network> = links.clone();
    if let Some(wrap) = service.wrap {
        network = wrap(network, sealer.clone());
    }
    let around = Surroundings {
        committee: committee.clone(),
        me,
        inbox: inbox.clone(),
        network: network.clone(),
        metrics: metrics.clone(),
        status: status.clone(),
    };
    let application = service.application;
    // It may wait for an application in another process.
    let open = || Chain::open(folder, settings.chain(), around, application, &chain);
    let blocks = tokio::task::block_in_place(open)?;
    let engine = Engine {
        open: opening(&settings, folder, me, committee.size())?,
        sealer,
        inbox: inbox.clone(),
        chain: chain.clone(),
        network,
        current,
        signatures,
        reports: ReportLog::open(&folder.join("reports"), settings.limits.report_bytes)?,
        metrics: metrics.clone(),
        status: status.clone(),
        settings: settings.engine(),
    };
    let bind = |address| async move {
        let bound = TcpListener::bind(address).await;
        bound.with_context(|| format!("listening at {address}"))
    };
    links.start(bind(settings.listen).await?, &key)?;
    let told = Told {
        me,
        members: committee.size(),
        status,
        metrics,
        links: links.clone(),
        record: folder.join(RECORD),
        started: Instant::now(),
    };
    let http = bind(settings.http).await?;
    let room = settings.limits.http_connections;
    let silence = Duration::from_millis(settings.times.http_silence);
    tokio::spawn(http::serve(http, room, silence, told, service.routes));
    info!(member = me, http = %settings.http, "started");
    settle(&links, committee.size()).await;

    let (over, mut ended) = tokio::sync::mpsc::unbounded_channel();
    let chain_thread = spawn("application", &over, move || blocks.run(&requests))?;
    let engine_thread = spawn("node", &over, move || engine.run())?;
    let mut interrupt = signal(SignalKind::interrupt())?;
    let mut terminate = signal(SignalKind::terminate())?;
    tokio::select! {
        _ = interrupt.recv() => info!("stopped by SIGINT"),
        _ = terminate.recv() => info!("stopped by SIGTERM"),
        _ = ended.recv() => {}
    }
    inbox.stop();
    if let Some(call) = service.at_stop {
        call();
    }
    let threads = tokio::task::spawn_blocking(move || {
        // The loop ends first: it asks the application's thread until then.
        let engine = joined(engine_thread);
        // Where that thread has ended there is nobody to stop, and its ending says why.
        let _ = chain.ask(Request::Stop);
        joined(chain_thread).and(engine)
    });
    threads.await?
}

fn joined(thread: JoinHandle<Ending>) -> Ending {
    match thread.join() {
        Ok(ended) => ended,
        Err(_) => bail!("a thread failed: what it said stands above"),
    }
}

/// Waits until all peers are reached, or for a while.
async fn settle(links: &Links, members: u32) {
    let all = async {
        while links.peers().0.len() + 1 < members as usize {
            tokio::time::sleep(Duration::from_millis(10)).await;
        }
    };
    // Where some aren't reached, the member begins without them.
    let _ = tokio::time::timeout(SETTLING, all).await;
}
