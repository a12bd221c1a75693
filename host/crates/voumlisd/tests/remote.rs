//! Applications in another language, each a process of its own, agree by a committee of real members.

mod common;

use common::{Committee, free_addresses, patience, until};
use std::io::{Read, Write};
use std::net::{SocketAddr, TcpStream};
use std::path::Path;
use std::process::{Child, Command};

/// The example in Python, one process for each member.
struct Applications {
    addresses: Vec<SocketAddr>,
    members: Vec<SocketAddr>,
    processes: Vec<Option<Child>>,
}

impl Applications {
    fn start(&mut self, member: usize) {
        let example = Path::new(env!("CARGO_MANIFEST_DIR")).join("../../examples/lines.py");
        let started = Command::new("python3")
            .arg(example)
            .arg(self.addresses[member].port().to_string())
            .arg(self.members[member].to_string())
            .spawn();
        self.processes[member] = Some(started.expect("this takes python3"));
    }

    /// As `kill -9`.
    fn kill(&mut self, member: usize) {
        if let Some(mut process) = self.processes[member].take() {
            process.kill().unwrap();
            process.wait().unwrap();
        }
    }

    /// The body of an answer of status 200.
    fn ask(&self, member: usize, head: &str, body: &str) -> Option<String> {
        let mut stream = TcpStream::connect(self.addresses[member]).ok()?;
        stream.set_read_timeout(Some(patience())).unwrap();
        let length = body.len();
        write!(
            stream,
            "{head} HTTP/1.1\r\nHost: application\r\nConnection: close\r\nContent-Length: {length}\r\n\r\n{body}"
        )
        .ok()?;
        let mut text = String::new();
        stream.read_to_string(&mut text).ok()?;
        let (head, body) = text.split_once("\r\n\r\n")?;
        head.contains(" 200 ").then(|| body.trim().to_owned())
    }

    /// Has a line made final, which is asked again where it took too long: then it may stand twice.
    fn add(&self, member: usize, line: &str) {
        until(&format!("{line} is final"), || {
            self.ask(member, "POST /lines", line)
        });
    }

    fn lines(&self, member: usize) -> Option<Vec<String>> {
        let text = self.ask(member, "GET /lines", "")?;
        Some(serde_json::from_str(&text).unwrap())
    }

    /// Waits until these members have alike lines, with this one among them, and gives them.
    fn agree(&self, members: &[usize], with: &str) -> Vec<String> {
        until(&format!("{members:?} have {with}"), || {
            let lines = self.lines(members[0])?;
            let alike = members
                .iter()
                .all(|it| self.lines(*it).as_ref() == Some(&lines));
            (alike && lines.iter().any(|line| line == with)).then_some(lines)
        })
    }
}

impl Drop for Applications {
    fn drop(&mut self) {
        (0..self.processes.len()).for_each(|member| self.kill(member));
    }
}

#[test]
fn applications_in_another_language_agree_and_are_told_their_state_again() {
    let addresses = free_addresses(4);
    let mut committee = Committee::new(4, |settings| {
        let own = settings
            .members
            .iter()
            .position(|it| it.address == settings.listen);
        settings.application = own.map(|member| addresses[member]);
        settings.limits.snapshot_views = 16;
    });
    let members = committee.settings.iter().map(|it| it.http).collect();
    let mut applications = Applications {
        addresses: addresses.clone(),
        members,
        processes: (0..4).map(|_| None).collect(),
    };
    (0..4).for_each(|member| applications.start(member));
    committee.start_all();
    applications.add(0, "first");
    applications.add(2, "second");
    let begun = applications.agree(&[0, 1, 2, 3], "second");
    assert_eq!(
        (&begun[0][..], &begun[begun.len() - 1][..]),
        ("first", "second")
    );

    // One is killed: the others go on, and it is told all when it is there again.
    applications.kill(1);
    applications.add(3, "third");
    applications.start(1);
    let all = applications.agree(&[0, 1, 2, 3], "third");
    assert_eq!(all[..begun.len()], begun);

    // A member that is killed begins from its snapshot and blocks, and its application with it.
    committee.kill(2);
    applications.add(0, "fourth");
    committee.start(2);
    applications.add(2, "fifth");
    let last = applications.agree(&[0, 1, 2, 3], "fifth");
    assert_eq!(last[..all.len()], all);

    // A member whose application is gone stops when it is to.
    applications.kill(0);
    committee.terminate(0);
}
