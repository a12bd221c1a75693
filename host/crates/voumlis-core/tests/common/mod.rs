//! A network that only remembers, and keys, for tests of one member alone.
#![allow(dead_code, reason = "each test uses a part of it")]

use std::path::{Path, PathBuf};
use std::sync::{Arc, Mutex};
use std::thread;
use std::time::{Duration, Instant};
use voumlis_core::committee::{Committee, SecretKey};
use voumlis_core::envelope::Sealer;
use voumlis_core::frame::Frame;
use voumlis_core::network::{Letter, Network};

/// A program: the one that this variable names, the one beside that of `VOUMLIS_PROGRAM`, or a proved one.
fn named(variable: &str, name: &str) -> PathBuf {
    if let Some(named) = std::env::var_os(variable) {
        return named.into();
    }
    let simplex = std::env::var_os("VOUMLIS_PROGRAM").map(PathBuf::from);
    let beside = simplex.map(|it| it.with_file_name(name));
    let top = Path::new(env!("CARGO_MANIFEST_DIR")).join("../../..");
    let proved = top.join("crates").join(name).join("out").join(name);
    let found = beside.filter(|it| it.exists()).unwrap_or(proved);
    assert!(
        found.exists(),
        "name a program {name} in {variable}: host/program {name} builds one, and prints its path"
    );
    found
}

/// The program `simplex`.
pub fn simplex() -> PathBuf {
    named("VOUMLIS_PROGRAM", "simplex")
}

/// The program `simplex_tool`, which runs nodes.
pub fn tool() -> PathBuf {
    named("VOUMLIS_TOOL", "simplex_tool")
}

/// Calls this for each frame that is sent.
type Watch = Box<dyn Fn(&Frame) + Send + Sync>;

/// What was sent, to one member or to all, and who was blocked.
#[derive(Default)]
pub struct Remembered {
    pub sent: Mutex<Vec<(Option<u32>, Frame)>>,
    pub blocked: Mutex<Vec<u32>>,
    pub watch: Option<Watch>,
}

impl Remembered {
    fn add(&self, to: Option<u32>, letter: &Letter) {
        let frame = Frame::read(&letter.bytes).unwrap();
        if let Some(watch) = &self.watch {
            watch(&frame);
        }
        self.sent.lock().unwrap().push((to, frame));
    }

    /// All that was sent since it was asked last.
    pub fn taken(&self) -> Vec<(Option<u32>, Frame)> {
        std::mem::take(&mut self.sent.lock().unwrap())
    }
}

impl Network for Remembered {
    fn send(&self, to: u32, letter: Letter) {
        self.add(Some(to), &letter);
    }

    fn send_to_all(&self, letter: Letter) {
        self.add(None, &letter);
    }

    fn block(&self, member: u32, _: &str) {
        self.blocked.lock().unwrap().push(member);
    }

    fn finalized(&self, _: u64) {}
}

pub fn key(member: u8) -> SecretKey {
    SecretKey::of_seed([member + 1; 32]).unwrap()
}

/// The sealers of four members.
pub fn sealers() -> Vec<Sealer> {
    let keys = (0..4).map(|member| key(member).public()).collect();
    let committee = Arc::new(Committee::new(keys).unwrap());
    (0..4)
        .map(|member| Sealer::new(committee.clone(), key(member)).unwrap())
        .collect()
}

/// How long anything may take on a busy machine. `VOUMLIS_PATIENCE` says another number of seconds, for runs in which a test is to fail.
pub fn patience() -> Duration {
    let named = std::env::var("VOUMLIS_PATIENCE").ok();
    let seconds = named.map_or(120, |text| text.parse().expect("a number of seconds"));
    Duration::from_secs(seconds)
}

/// Waits until this gives something.
pub fn until<T>(what: &str, mut look: impl FnMut() -> Option<T>) -> T {
    let end = Instant::now() + patience();
    loop {
        if let Some(found) = look() {
            return found;
        }
        assert!(Instant::now() < end, "waited in vain: {what}");
        thread::sleep(Duration::from_millis(2));
    }
}
