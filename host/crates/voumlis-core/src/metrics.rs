//! What a member counts, and what it tells of itself.

use anyhow::Result;
use application::BlockId;
use prometheus::{
    Encoder, Histogram, HistogramOpts, IntCounter, IntCounterVec, IntGauge, IntGaugeVec, Opts,
    Registry, TextEncoder,
};
use std::collections::BTreeMap;
use std::sync::Mutex;
use std::time::Instant;

/// The counters and gauges of one member, under the names of `/metrics`.
pub struct Metrics {
    registry: Registry,
    /// The highest view that was entered.
    pub view: IntGauge,
    /// The last view whose proposal is final.
    pub finalized: IntGauge,
    /// The view of the last block that the application carried out.
    pub applied: IntGauge,
    /// Blocks that the application carried out.
    pub blocks: IntCounter,
    /// Seconds between two entries of views.
    pub view_seconds: Histogram,
    /// Packets that were left out since the node has what they say.
    pub repeated: IntCounter,
    /// Events that the node refused, by name.
    pub refusals: IntCounterVec,
    /// Frames that were refused before the node saw them, by name.
    pub frames_refused: IntCounterVec,
    /// What found no room or was superseded, by queue.
    pub dropped: IntCounterVec,
    /// Packets that couldn't be sent or reported since a signature isn't kept any more.
    pub unsigned: IntCounter,
    /// Syncs of the host's own files, by file.
    pub syncs: IntCounterVec,
    /// Bytes of files, by file.
    pub file_bytes: IntGaugeVec,
    /// What waits, by queue.
    pub waiting: IntGaugeVec,
    /// Bytes that went out and came in, by direction.
    pub network_bytes: IntCounterVec,
    /// Peers that are connected: to whom this member sends, and who sends to it.
    pub peers: IntGaugeVec,
    /// Openings of the record in this process.
    pub openings: IntCounter,
    /// Lives that ended since no view was entered for long.
    pub stuck: IntCounter,
    /// How often the record was rewritten since it had doubled.
    pub rewrites: IntCounter,
    /// The last final view when that was done last: where it was rewritten, the record begins with that finalization.
    pub rewritten: IntGauge,
    /// So many times slower than the clock the node is told the time.
    pub slowness: IntGauge,
    /// How often the time was told slower and faster, by direction.
    pub paces: IntCounterVec,
    /// Seconds that the node takes for an event.
    pub step_seconds: Histogram,
}

/// Bounds of the histograms, in seconds.
const BOUNDS: [f64; 12] = [
    0.0005, 0.001, 0.0025, 0.005, 0.01, 0.025, 0.05, 0.1, 0.25, 1.0, 2.5, 10.0,
];

impl Metrics {
    /// Counters that all stand at zero.
    ///
    /// # Errors
    ///
    /// None that is known: a name would have to come twice.
    pub fn new() -> Result<Metrics> {
        let registry = Registry::new();
        let gauge = |name: &str, help: &str| -> Result<IntGauge> {
            let gauge = IntGauge::new(format!("voumlis_{name}"), help)?;
            registry.register(Box::new(gauge.clone()))?;
            Ok(gauge)
        };
        let counter = |name: &str, help: &str| -> Result<IntCounter> {
            let counter = IntCounter::new(format!("voumlis_{name}_total"), help)?;
            registry.register(Box::new(counter.clone()))?;
            Ok(counter)
        };
        let counters = |name: &str, help: &str, label: &str| -> Result<IntCounterVec> {
            let opts = Opts::new(format!("voumlis_{name}_total"), help);
            let counters = IntCounterVec::new(opts, &[label])?;
            registry.register(Box::new(counters.clone()))?;
            Ok(counters)
        };
        let gauges = |name: &str, help: &str, label: &str| -> Result<IntGaugeVec> {
            let gauges = IntGaugeVec::new(Opts::new(format!("voumlis_{name}"), help), &[label])?;
            registry.register(Box::new(gauges.clone()))?;
            Ok(gauges)
        };
        let histogram = |name: &str, help: &str| -> Result<Histogram> {
            let opts = HistogramOpts::new(format!("voumlis_{name}"), help).buckets(BOUNDS.to_vec());
            let histogram = Histogram::with_opts(opts)?;
            registry.register(Box::new(histogram.clone()))?;
            Ok(histogram)
        };
        let slowness = gauge("slowness", "how many times slower the time is told")?;
        slowness.set(1);
        Ok(Metrics {
            view: gauge("view", "highest view entered")?,
            finalized: gauge("finalized_view", "last final view")?,
            applied: gauge("applied_view", "view of the last block carried out")?,
            blocks: counter("blocks", "blocks carried out")?,
            view_seconds: histogram("view_seconds", "time between two entries of views")?,
            repeated: counter(
                "repeated",
                "packets left out, since the node has what they say",
            )?,
            refusals: counters("refusals", "events the node refused", "why")?,
            frames_refused: counters("frames_refused", "frames refused by the host", "why")?,
            dropped: counters("dropped", "what found no room or was superseded", "queue")?,
            unsigned: counter("unsigned", "packets and reports without kept signatures")?,
            syncs: counters("syncs", "syncs of the host's own files", "file")?,
            file_bytes: gauges("file_bytes", "sizes of files", "file")?,
            waiting: gauges("waiting", "what waits in queues", "queue")?,
            network_bytes: counters("network_bytes", "bytes over links", "direction")?,
            peers: gauges("peers", "connected peers", "direction")?,
            openings: counter("openings", "openings of the record")?,
            stuck: counter("stuck", "lives ended since no view was entered for long")?,
            rewrites: counter("rewrites", "rewrites of the record")?,
            rewritten: gauge("rewritten_view", "last final view at the last rewrite")?,
            slowness,
            paces: counters("paces", "changes of how slow the time is told", "direction")?,
            step_seconds: histogram("step_seconds", "time the node takes for an event")?,
            registry,
        })
    }

    /// All of it in the text format of Prometheus.
    ///
    /// # Errors
    ///
    /// None that is known: writing to memory would have to fail.
    pub fn text(&self) -> Result<String> {
        let mut text = Vec::new();
        TextEncoder::new().encode(&self.registry.gather(), &mut text)?;
        Ok(String::from_utf8(text)?)
    }
}

/// What a member tells of itself on `/status`.
#[derive(Clone, Debug)]
pub struct State {
    /// The highest view that was entered.
    pub view: u64,
    /// The last final proposal.
    pub finalized: BlockId,
    /// The last block that the application carried out.
    pub applied: BlockId,
    /// Members of whom nothing more is taken, and why.
    pub blocked: BTreeMap<u32, String>,
    /// How many pieces of evidence the node told in this process that the log didn't have.
    pub evidence: u64,
    /// How often the record was opened in this process.
    pub life: u64,
    /// When a view was entered last.
    pub entered: Instant,
    /// So many times slower than the clock the node is told the time.
    pub slowness: u32,
}

/// The state, for any number of threads.
pub struct Status(Mutex<State>);

impl Default for Status {
    fn default() -> Status {
        Status(Mutex::new(State {
            view: 0,
            finalized: BlockId::GENESIS,
            applied: BlockId::GENESIS,
            blocked: BTreeMap::new(),
            evidence: 0,
            life: 0,
            entered: Instant::now(),
            slowness: 1,
        }))
    }
}

impl Status {
    /// The state now.
    pub fn get(&self) -> State {
        self.0.lock().expect("no thread failed with it").clone()
    }

    /// Changes the state.
    pub fn change<T>(&self, change: impl FnOnce(&mut State) -> T) -> T {
        change(&mut self.0.lock().expect("no thread failed with it"))
    }
}
