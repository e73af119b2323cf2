//! An HTTP server for the files of a folder, which it keeps in memory. In the folder `bindings`:
//!
//!     cargo run --release --example web_server -- FOLDER [ADDRESS [WORKERS]]
//!
//! `GET /NAME` returns a file, `GET /count` how many requests were answered, itself included. One thread accepts
//! connections and appends them to a bounded queue; each worker takes one after the other and answers its requests. At
//! the end of its standard input the server accepts no more connections, answers those that it has, and ends. The
//! threads share monitors of this crate, or, with `LOCKS=std` in the environment, mutexes and condition variables.
mod monitors;
mod monitors_std;

use std::borrow::Cow;
use std::collections::{HashMap, VecDeque};
use std::io::{self, BufRead, BufReader, Read, Write};
use std::net::{TcpListener, TcpStream};
use std::sync::atomic::{AtomicBool, Ordering::Relaxed};
use std::time::Duration;
use std::{env, fs, iter, thread};

/// How many requests of a connection are answered: then it is closed, so that the worker takes another one.
const MOST_REQUESTS: u64 = 100;
const MOST_BYTES_OF_HEAD: u64 = 8192;
/// How long a worker waits for a client: then it closes the connection.
const PATIENCE: Duration = Duration::from_secs(2);
/// How many connections the queue has room for.
const ROOM: usize = 16;

#[derive(Default)]
struct Queue {
    connections: VecDeque<TcpStream>, // at most ROOM
    is_closed: bool,
}

/// What the threads share: the queue of connections, and the number of answers.
trait Shared: Sync {
    /// Appends a connection, once there is room.
    fn append(&self, connection: TcpStream);
    /// Takes the first connection, once there is one. Returns nothing if the queue is closed and empty.
    fn take(&self) -> Option<TcpStream>;
    fn close(&self);
    /// Adds to the number of answers, and returns it.
    fn count(&self, answers: u64) -> u64;
}

struct Server {
    listener: TcpListener,
    files: HashMap<String, Vec<u8>>, // by the path of a request
    shared: Box<dyn Shared>,
    ends: AtomicBool,
}

impl Server {
    /// Serves until the end of the standard input. Returns the sum of the answers that each worker counted for itself.
    fn run(&self, workers: usize) -> io::Result<u64> {
        let address = self.listener.local_addr()?;
        println!("http://{address}");
        thread::scope(|s| {
            s.spawn(|| self.accept());
            let workers: Vec<_> = (0..workers).map(|_| s.spawn(|| self.work())).collect();
            let read = io::copy(&mut io::stdin(), &mut io::sink());
            self.ends.store(true, Relaxed);
            drop(TcpStream::connect(address)); // `accept` returns
            read.map(|_| workers.into_iter().map(|worker| worker.join().unwrap()).sum())
        })
    }

    fn accept(&self) {
        for connection in self.listener.incoming().take_while(|_| !self.ends.load(Relaxed)) {
            match connection {
                Ok(connection) => self.shared.append(connection),
                Err(_) => thread::sleep(Duration::from_millis(10)), // too many open files, for example
            }
        }
        self.shared.close();
    }

    /// Takes one connection after the other. Returns the number of answers.
    fn work(&self) -> u64 {
        iter::from_fn(|| self.shared.take()).map(|connection| self.serve(connection)).sum()
    }

    /// Answers the requests of a connection. Returns their number.
    fn serve(&self, connection: TcpStream) -> u64 {
        let limits = connection.set_read_timeout(Some(PATIENCE)).and(connection.set_write_timeout(Some(PATIENCE)));
        let (mut answers, mut is_kept) = (0, limits.and(connection.set_nodelay(true)).is_ok());
        let mut input = BufReader::new(connection);
        while is_kept {
            let Some(head) = read_head(&mut input) else { break };
            answers += 1;
            is_kept = allows_another(&head) && answers < MOST_REQUESTS && !self.ends.load(Relaxed);
            is_kept &= input.get_mut().write_all(&self.answer(&head, is_kept)).is_ok();
        }
        answers
    }

    fn answer(&self, head: &str, is_kept: bool) -> Vec<u8> {
        let count = self.shared.count(1);
        let mut words = head.split(' ');
        let (status, body): (_, Cow<'_, [u8]>) = match (words.next(), words.next()) {
            (Some("GET"), Some("/count")) => ("200 OK", format!("{count}\n").into_bytes().into()),
            (Some("GET"), Some(path)) => match self.files.get(path) {
                Some(file) => ("200 OK", file.into()),
                None => ("404 Not Found", b"there is no such file\n"[..].into()),
            },
            _ => ("405 Method Not Allowed", b"there is only GET\n"[..].into()),
        };
        let (length, connection) = (body.len(), if is_kept { "keep-alive" } else { "close" });
        let head = format!("HTTP/1.1 {status}\r\nContent-Length: {length}\r\nConnection: {connection}\r\n\r\n");
        [head.as_bytes(), &body].concat()
    }
}

/// Reads a request up to its empty line. Returns nothing if there is no further request, or one that isn't whole.
fn read_head(input: &mut BufReader<TcpStream>) -> Option<String> {
    let (mut head, mut input) = (String::new(), input.take(MOST_BYTES_OF_HEAD));
    while input.read_line(&mut head).ok()? > "\r\n".len() {}
    head.ends_with("\r\n\r\n").then_some(head)
}

/// Returns true if the client may send another request after that with this head.
fn allows_another(head: &str) -> bool {
    let line = head.lines().next().unwrap_or_default();
    let closes = head.to_ascii_lowercase().contains("\nconnection: close\r");
    line.starts_with("GET ") && line.ends_with(" HTTP/1.1") && !closes
}

fn read_files(folder: &str) -> io::Result<HashMap<String, Vec<u8>>> {
    let entries = fs::read_dir(folder)?.collect::<io::Result<Vec<_>>>()?;
    let files = entries.iter().filter(|entry| entry.path().is_file());
    files.map(|file| Ok((format!("/{}", file.file_name().to_string_lossy()), fs::read(file.path())?))).collect()
}

fn main() -> io::Result<()> {
    let mut words = env::args().skip(1);
    let files = read_files(&words.next().expect("the arguments are FOLDER [ADDRESS [WORKERS]]"))?;
    let address = words.next().unwrap_or("127.0.0.1:8080".into());
    let workers = words.next().map_or(100, |word| word.parse().expect("WORKERS is a number"));
    let is_std = env::var("LOCKS").is_ok_and(|locks| locks == "std");
    let shared: Box<dyn Shared> =
        if is_std { Box::<monitors_std::Monitors>::default() } else { Box::new(monitors::Monitors::new()) };
    let server = Server { listener: TcpListener::bind(address)?, files, shared, ends: false.into() };
    let answers = server.run(workers)?;
    println!("{answers} requests were answered");
    assert_eq!(server.shared.count(0), answers);
    Ok(())
}
