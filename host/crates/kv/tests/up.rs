//! `host/up 4` as one calls it: it prints the address of a store that answers, and each of its members is killed in turn.

use std::io::{BufRead, BufReader, Read, Write};
use std::net::{SocketAddr, TcpListener, TcpStream};
use std::path::{Path, PathBuf};
use std::process::{Child, Command, Stdio};
use std::thread;
use std::time::{Duration, Instant};
use tempfile::TempDir;

/// How long anything may take: a program that isn't proved is slow, and where the machine has more to do than processors it takes as many
/// times longer. `VOUMLIS_PATIENCE` says a number of seconds.
fn patience() -> Duration {
    if let Ok(named) = std::env::var("VOUMLIS_PATIENCE") {
        return Duration::from_secs(named.parse().expect("a number of seconds"));
    }
    let load = std::fs::read_to_string("/proc/loadavg").unwrap_or_default();
    let load: f64 = load.split(' ').next().unwrap().parse().unwrap_or(0.0);
    let processors = thread::available_parallelism().map_or(1.0, |it| it.get() as f64);
    Duration::from_secs(180).mul_f64((load / processors).max(1.0))
}

fn top() -> PathBuf {
    Path::new(env!("CARGO_MANIFEST_DIR")).join("../../..")
}

/// A program: the one that this variable names, the one beside that of `VOUMLIS_PROGRAM`, or a proved one.
fn program(variable: &str, name: &str) -> PathBuf {
    if let Some(named) = std::env::var_os(variable) {
        return named.into();
    }
    let simplex = std::env::var_os("VOUMLIS_PROGRAM").map(PathBuf::from);
    let beside = simplex.map(|it| it.with_file_name(name));
    let proved = top().join("crates").join(name).join("out").join(name);
    let found = beside.filter(|it| it.exists()).unwrap_or(proved);
    assert!(
        found.exists(),
        "name a program {name} in {variable}: host/program {name} builds one, and prints its path"
    );
    found
}

fn until<T>(what: &str, mut look: impl FnMut() -> Option<T>) -> T {
    let end = Instant::now() + patience();
    loop {
        if let Some(found) = look() {
            return found;
        }
        assert!(Instant::now() < end, "waited in vain: {what}");
        thread::sleep(Duration::from_millis(100));
    }
}

/// The first of eight ports in a row that are free, below those that systems give to connections.
fn free_ports() -> u16 {
    let begin = 10_000 + std::process::id() % 1_000 * 20;
    let tried = (0..500).map(|step| (begin + step * 8) as u16);
    let is_free = |port: u16| TcpListener::bind(("127.0.0.1", port)).is_ok();
    let mut free = tried.filter(|first| (*first..first + 8).all(is_free));
    free.next().expect("there are free ports")
}

/// What `host/up` started: the numbers and addresses that it printed.
struct Up {
    folder: TempDir,
    script: Child,
    members: Vec<(u32, SocketAddr)>,
    /// The address in the words that it gives as an example.
    example: SocketAddr,
    /// Members that were started again.
    again: Vec<Child>,
}

impl Up {
    fn start() -> Up {
        let folder = tempfile::tempdir().unwrap();
        let mut script = Command::new(top().join("host/up"))
            .arg("4")
            .env("VOUMLIS_FOLDER", folder.path().join("committee"))
            .env("VOUMLIS_PORT", free_ports().to_string())
            .env("VOUMLIS_MEMBER", env!("CARGO_BIN_EXE_kv"))
            .env("VOUMLIS_PROGRAM", program("VOUMLIS_PROGRAM", "simplex"))
            .env("VOUMLIS_TOOL", program("VOUMLIS_TOOL", "simplex_tool"))
            .env("VOUMLIS_PATIENCE", patience().as_secs().to_string())
            .stdout(Stdio::piped())
            .spawn()
            .unwrap();
        let output = script.stdout.take().unwrap();
        let (mut members, mut example) = (Vec::new(), None);
        for line in BufReader::new(output).lines().map(Result::unwrap) {
            let address = line.split("http://").nth(1);
            let address = address.and_then(|rest| rest.split('/').next());
            let address = address.map(|text| text.parse().unwrap());
            if let Some(rest) = line.strip_prefix("member ") {
                let process = rest.split([' ', ',']).nth(2).unwrap();
                members.push((process.parse().unwrap(), address.unwrap()));
            } else if line.contains("curl -X PUT") {
                example = address;
                break;
            }
        }
        Up {
            folder,
            script,
            members,
            example: example.expect("it prints how the store is asked"),
            again: Vec::new(),
        }
    }

    fn folder(&self, member: usize) -> PathBuf {
        self.folder
            .path()
            .join(format!("committee/member-{member}"))
    }

    /// As `kill -9`.
    fn kill(&self, member: usize) {
        let process = self.members[member].0.to_string();
        let killed = Command::new("kill").args(["-9", &process]).status();
        assert!(killed.unwrap().success());
    }

    fn start_again(&mut self, member: usize) {
        let log = std::fs::File::create(self.folder(member).join("log-again")).unwrap();
        let started = Command::new(env!("CARGO_BIN_EXE_kv"))
            .arg("run")
            .arg(self.folder(member))
            .stderr(log)
            .spawn();
        self.again.push(started.unwrap());
    }
}

impl Drop for Up {
    fn drop(&mut self) {
        // Those that are gone already are what is wanted.
        let _ = Command::new("kill")
            .arg(self.script.id().to_string())
            .stderr(Stdio::null())
            .status();
        let _ = self.script.wait();
        for member in &mut self.again {
            let _ = member.kill();
            let _ = member.wait();
        }
        if thread::panicking() {
            for log in
                (0..4).flat_map(|it| ["log", "log-again"].map(|log| self.folder(it).join(log)))
            {
                let text = std::fs::read_to_string(&log).unwrap_or_default();
                eprintln!("---- {}\n{text}", log.display());
            }
        }
    }
}

/// The body of an answer of status 200.
fn ask(address: SocketAddr, head: &str, body: &str) -> Option<String> {
    let mut stream = TcpStream::connect(address).ok()?;
    stream.set_read_timeout(Some(patience())).unwrap();
    let length = body.len();
    write!(
        stream,
        "{head} HTTP/1.1\r\nHost: store\r\nConnection: close\r\nContent-Length: {length}\r\n\r\n{body}"
    )
    .ok()?;
    let mut text = String::new();
    stream.read_to_string(&mut text).ok()?;
    let (head, body) = text.split_once("\r\n\r\n")?;
    head.contains(" 200 ").then(|| body.to_owned())
}

/// Puts a value, again where it isn't known whether it was, and gives the view of its block.
fn put(address: SocketAddr, key: &str, value: &str) -> u64 {
    let head = format!("PUT /keys/{key}");
    let told = until(&head, || ask(address, &head, value));
    let told: serde_json::Value = serde_json::from_str(&told).unwrap();
    told["view"].as_u64().unwrap()
}

/// Whether a member has all that was written, once it has reached this view.
fn all_there(address: SocketAddr, written: &[(String, String)], view: u64) {
    for (key, value) in written {
        let head = format!("GET /keys/{key}?local&after={view}&within=60000");
        let read = until(&head, || ask(address, &head, ""));
        assert_eq!(read, *value, "{key} at {address}");
    }
}

#[test]
fn the_store_that_is_printed_answers_and_no_member_that_is_killed_loses_or_stops_anything() {
    let mut up = Up::start();
    assert_eq!(up.members.len(), 4);
    put(up.example, "begun", "one");
    let read = until("a read by the log", || {
        ask(up.members[0].1, "GET /keys/begun", "")
    });
    assert_eq!(read, "one");
    let mut written = vec![("begun".to_owned(), read)];
    for victim in 0..4 {
        let others: Vec<SocketAddr> = (0..4)
            .filter(|member| *member != victim)
            .map(|member| up.members[member].1)
            .collect();
        // What the victim itself acknowledged last is there without it.
        let last = (format!("last-of-{victim}"), format!("value {victim}"));
        put(up.members[victim].1, &last.0, &last.1);
        up.kill(victim);
        written.push(last);
        let without = (format!("without-{victim}"), "goes on".to_owned());
        let view = put(others[0], &without.0, &without.1);
        written.push(without);
        all_there(others[1], &written, view);
        up.start_again(victim);
        all_there(up.members[victim].1, &written, view);
    }
    // Of its own members none is left: it ends by itself.
    until("host/up ends", || up.script.try_wait().unwrap());
}

#[test]
fn a_build_that_finds_no_crates_says_in_one_line_what_to_do() {
    let folder = tempfile::tempdir().unwrap();
    let at = |name: &str| folder.path().join(name);
    std::fs::copy(top().join("host/build"), at("build")).unwrap();
    std::fs::create_dir_all(at("src")).unwrap();
    std::fs::create_dir_all(at(".cargo")).unwrap();
    std::fs::write(at("src/lib.rs"), "").unwrap();
    // Settings are there, so none of Debian's are written; by these there is no network.
    std::fs::write(at(".cargo/config.toml"), "[net]\noffline = true\n").unwrap();
    let manifest = "[package]\nname = \"a\"\nversion = \"0.1.0\"\n[dependencies]\nserde = \"1\"\n";
    std::fs::write(at("Cargo.toml"), manifest).unwrap();
    let built = Command::new(at("build"))
        .arg("--quiet")
        .env("CARGO_HOME", at("nothing"))
        .output()
        .unwrap();
    let told = String::from_utf8(built.stderr).unwrap();
    assert_eq!(built.status.code(), Some(1), "{told}");
    assert_eq!(told.lines().count(), 1, "{told}");
    assert!(told.contains("host/use-debian-crates --install"), "{told}");
}
