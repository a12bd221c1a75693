use super::{Member, NodeSettings, NotYet, Rewriting, record_bytes};
use crate::wire::{Event, Reply, Trouble};
use anyhow::{Context, Result, anyhow, bail};
use std::io::{Read, Write};
use std::os::unix::process::CommandExt;
use std::path::{Path, PathBuf};
use std::process::{ChildStdin, ChildStdout, Command, Stdio};
use std::thread;
use std::time::{Duration, Instant};
use tracing::warn;

/// The program `simplex_tool member FILE` as a child process: one event on its input, one reply on its output. It rewrites the record where
/// its input ends, and as often as FILE says.
pub struct Child {
    process: std::process::Child,
    record: PathBuf,
    /// Whether it rewrites the record of itself too.
    rewrites: bool,
    input: Option<ChildStdin>,
    output: ChildStdout,
    /// What was read and is no whole reply yet.
    ahead: Vec<u8>,
    /// How long it may take to end once its input has, before it is killed.
    patience: Duration,
}

/// How long a child may take to end once its input has. It ends between two events, so more than that is a machine that stands, or a
/// process that was stopped.
const PATIENCE: Duration = Duration::from_secs(60);

/// When it is first told that a child takes long to end; then each time twice as late.
const FIRST_TOLD: Duration = Duration::from_secs(1);

/// How often is looked whether it has ended.
const LOOK: Duration = Duration::from_millis(5);

/// What the program says where its record can't be locked, or memory ran out: both may pass.
const PASSING: [&str; 2] = ["error: device", "error: memory"];

impl Child {
    /// Starts the program over this record, as `member` of `members`, by a file of these settings that is written beside the record.
    ///
    /// # Errors
    ///
    /// Where the file can't be written, or the program not be started, or it doesn't open the record: [`NotYet`] where that may pass, as
    /// while another process has it.
    pub fn open(
        program: &Path,
        record: &Path,
        member: u32,
        members: u32,
        settings: &NodeSettings,
    ) -> Result<(Child, Reply)> {
        let file = settings.write_beside(record, member, members)?;
        let mut process = Command::new(program)
            .arg("member")
            .arg(file)
            .stdin(Stdio::piped())
            .stdout(Stdio::piped())
            .stderr(Stdio::piped())
            // A signal to the host's group, as Ctrl-C is, is the host's: the node ends when its input does.
            .process_group(0)
            .spawn()
            .with_context(|| format!("the program {}", program.display()))?;
        let input = process.stdin.take();
        let output = process.stdout.take().context("a pipe was asked for")?;
        let mut child = Child {
            process,
            record: record.to_owned(),
            rewrites: settings.rewrite_views > 0,
            input,
            output,
            ahead: Vec::new(),
            patience: PATIENCE,
        };
        match child.reply() {
            Ok(first) => Ok((child, first)),
            Err(told) if may_pass(&told) => Err(NotYet(format!("{told:#}")).into()),
            Err(told) => Err(told),
        }
    }

    /// The same, killed where it hasn't ended so long after its input.
    pub fn with_patience(mut self, patience: Duration) -> Child {
        self.patience = patience;
        self
    }

    /// The process's number.
    pub fn id(&self) -> u32 {
        self.process.id()
    }

    fn reply(&mut self) -> Result<Reply> {
        let mut piece = vec![0; 1 << 16];
        loop {
            match Reply::read(&self.ahead) {
                Ok((reply, size)) => {
                    self.ahead.drain(..size);
                    return Ok(reply);
                }
                Err(Trouble::End) => {}
                Err(trouble) => bail!("the node answered no reply: {trouble}"),
            }
            match self.output.read(&mut piece)? {
                0 => return Err(self.last_words()),
                size => self.ahead.extend(&piece[..size]),
            }
        }
    }

    /// Why it ended.
    fn last_words(&mut self) -> anyhow::Error {
        let mut told = String::new();
        let read = self
            .process
            .stderr
            .as_mut()
            .map(|errors| errors.read_to_string(&mut told));
        match (self.process.wait(), read) {
            (Ok(status), _) => anyhow!("the node ended: {status} {}", told.trim()),
            (Err(error), _) => anyhow!("the node ended: {error}"),
        }
    }
}

impl Member for Child {
    fn step(&mut self, event: &Event) -> Result<Reply> {
        let mut bytes = Vec::new();
        event.append(&mut bytes);
        let input = self.input.as_mut().context("its input has ended")?;
        let wrote = input.write_all(&bytes).and_then(|()| input.flush());
        match wrote {
            Ok(()) => self.reply(),
            Err(_) => Err(self.last_words()),
        }
    }

    fn record_bytes(&self) -> Result<[u64; 2]> {
        Ok(record_bytes(&self.record)?)
    }

    /// No word of the host's but the end of its input has the program do it.
    fn rewrite(&mut self) -> Result<Rewriting> {
        Ok(if self.rewrites {
            Rewriting::OfItself
        } else {
            Rewriting::AtItsEnd
        })
    }

    /// A machine that is busy may take its time. A child that doesn't end is killed: for its record that is a crash as any other.
    fn close(mut self: Box<Self>) -> Result<()> {
        drop(self.input.take());
        let begun = Instant::now();
        let mut telling = FIRST_TOLD;
        loop {
            match self.process.try_wait()? {
                Some(status) if status.success() => return Ok(()),
                Some(_) => return Err(self.last_words()),
                None => thread::sleep(LOOK),
            }
            let waited = begun.elapsed();
            if waited >= self.patience {
                warn!(
                    ?waited,
                    "the node didn't end when its input did, and is killed"
                );
                self.process.kill()?;
                self.process.wait()?;
                return Ok(());
            }
            if waited >= telling {
                telling *= 2;
                warn!(?waited, "the node hasn't ended yet");
            }
        }
    }
}

/// Whether a record that wasn't opened may be opened later.
fn may_pass(told: &anyhow::Error) -> bool {
    let told = format!("{told:#}");
    PASSING.iter().any(|words| told.contains(words))
}

impl Drop for Child {
    /// No child outlives its host.
    fn drop(&mut self) {
        if let Ok(None) = self.process.try_wait() {
            // It may have ended meanwhile: then there is nothing to kill.
            let _ = self.process.kill();
            let _ = self.process.wait();
        }
    }
}
