//! Processes of an example, over an etcd of their own.
use durkenzo_store::{Access, Etcd, Store};
use std::fs;
use std::io::{BufRead, BufReader};
use std::net::TcpListener;
use std::path::{Path, PathBuf};
use std::process::{Child, Command, Stdio};
use std::sync::Arc;
use std::thread;
use std::time::{Duration, Instant};

/// How long a client tries a call, and how long the test waits for an event that must come.
pub const PATIENCE: Duration = Duration::from_secs(20);

/// A process that is killed at the end.
pub struct Process(pub Child);

impl Drop for Process {
    fn drop(&mut self) {
        // The process may have ended already.
        let _ = self.0.kill();
        let _ = self.0.wait();
    }
}

/// An etcd with a folder of its own.
pub struct OwnEtcd {
    pub url: String,
    folder: PathBuf,
    _process: Process,
}

impl OwnEtcd {
    /// Begins an etcd. Returns nothing if etcd isn't installed.
    pub fn begin() -> Option<OwnEtcd> {
        let folder = std::env::temp_dir().join(format!("durkenzo-fleet-{}", std::process::id()));
        let [url, peer] = [free_port(), free_port()].map(|it| format!("http://127.0.0.1:{it}"));
        let process = Command::new("etcd")
            .args(["--data-dir".as_ref(), folder.as_os_str()])
            .args([
                "--listen-client-urls",
                &url,
                "--advertise-client-urls",
                &url,
            ])
            .args([
                "--listen-peer-urls",
                &peer,
                "--initial-advertise-peer-urls",
                &peer,
            ])
            .args([
                "--initial-cluster",
                &format!("default={peer}"),
                "--unsafe-no-fsync",
            ])
            .stdout(Stdio::null())
            .stderr(Stdio::null())
            .spawn();
        let _process = Process(process.ok()?);
        Some(OwnEtcd {
            url,
            folder,
            _process,
        })
    }

    pub fn store(&self) -> Arc<dyn Store> {
        let store = Etcd::new(Access::new([&self.url])).unwrap();
        until("etcd answers", || store.read(&[b"settings"]).is_ok());
        Arc::new(store)
    }
}

impl Drop for OwnEtcd {
    fn drop(&mut self) {
        // The process still runs for a moment. Files that it leaves are in a temporary folder.
        let _ = fs::remove_dir_all(&self.folder);
    }
}

fn free_port() -> u16 {
    let listener = TcpListener::bind("127.0.0.1:0").unwrap();
    listener.local_addr().unwrap().port()
}

/// Begins a server of the example with these options. Returns its process and its address.
pub fn server(program: &Path, options: &[&str]) -> (Process, String) {
    server_with_stderr(program, options, Stdio::inherit())
}

/// Begins a server as [`server`] does. Its lines for the operator go to `stderr`.
pub fn server_with_stderr(program: &Path, options: &[&str], stderr: Stdio) -> (Process, String) {
    let mut child = Command::new(program)
        .args(options)
        .stdout(Stdio::piped())
        .stderr(stderr)
        .spawn()
        .unwrap();
    let mut told = String::new();
    BufReader::new(child.stdout.take().unwrap())
        .read_line(&mut told)
        .unwrap();
    let address = told.trim_end().rsplit(' ').next().unwrap();
    (Process(child), address.to_owned())
}

/// Returns the program of the example, which cargo builds before it runs tests.
pub fn example(name: &str) -> PathBuf {
    let test = std::env::current_exe().unwrap();
    let folder = test.parent().and_then(Path::parent).unwrap();
    folder.join("examples").join(name)
}

pub fn until(what: &str, holds: impl Fn() -> bool) {
    let end = Instant::now() + PATIENCE;
    while !holds() {
        assert!(Instant::now() < end, "it never was that {what}");
        thread::sleep(Duration::from_millis(20));
    }
}
