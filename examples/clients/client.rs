//! A railway's session with taf_hub, with up to sixteen records on the way: `client PORT RAILWAY [SECONDS] <RECORDS`
//!
//! Says hello, sends the records of its standard input, and shows the answers in their order. Then it fetches and
//! acknowledges the items of its outbox until there is none. Where the connection breaks, and where the hub is full, it
//! connects again, for so many seconds (0), says hello, and sends again each record that has no answer. It needs no crate:
//! `rustc -O client.rs`.

use std::collections::VecDeque;
use std::io::{BufRead, BufReader, Error, ErrorKind, Result, Write};
use std::net::TcpStream;
use std::sync::mpsc::{Receiver, Sender, channel};
use std::sync::{Arc, Mutex};
use std::time::{Duration, Instant};
use std::{env, io, process, thread};

/// How many records may be on the way.
const WINDOW: usize = 16;

/// What the hub says where it serves as many sessions as it can. Then it ends the connection.
const FULL: &str = "{\"fault\":\"full\"}\n";

/// What the arguments say: the port, the railway, and how long it connects again.
struct Hub {
    port: u16,
    railway: String,
    patience: Duration,
}

/// What both threads of a session have: the connection, which is locked while a record is sent and while all are sent again, and
/// the records that have no answer, in order.
struct Sending {
    connection: Mutex<TcpStream>,
    open: Mutex<VecDeque<String>>,
}

/// A session with the hub, over one connection after another, and the answers that come.
struct Session {
    sending: Arc<Sending>,
    answers: Receiver<String>,
    /// How many records have no answer yet.
    open: usize,
}

fn ended() -> Error {
    Error::new(ErrorKind::UnexpectedEof, "the hub has ended the session")
}

fn is_full(error: &Error) -> bool {
    error.kind() == ErrorKind::ResourceBusy
}

/// The next answer. None where the connection is broken: a line that is cut off is no answer.
fn next_answer(lines: &mut impl BufRead) -> Option<String> {
    let mut line = String::new();
    match lines.read_line(&mut line) {
        Ok(_) if line.ends_with('\n') => Some(line),
        _ => None,
    }
}

impl Hub {
    /// Connects, says hello, and sends these records. Gives the connection, its lines, and the answer to the hello.
    fn connect(&self, open: &VecDeque<String>) -> Result<(TcpStream, BufReader<TcpStream>, String)> {
        let mut connection = TcpStream::connect(("127.0.0.1", self.port))?;
        connection.set_nodelay(true)?;
        let mut lines = BufReader::new(connection.try_clone()?);
        connection.write_all(format!("{{\"kind\":\"hello\",\"from\":\"{}\"}}\n", self.railway).as_bytes())?;
        for record in open {
            connection.write_all(record.as_bytes())?;
        }
        let answer = next_answer(&mut lines).ok_or_else(ended)?;
        if answer == FULL {
            return Err(Error::new(ErrorKind::ResourceBusy, "the hub is full"));
        }
        Ok((connection, lines, answer))
    }

    /// Connects. Where the hub is full it tries again, within the seconds.
    fn connect_while_full(&self) -> Result<(TcpStream, BufReader<TcpStream>, String)> {
        let start = Instant::now();
        loop {
            match self.connect(&VecDeque::new()) {
                Err(error) if is_full(&error) && start.elapsed() < self.patience => {
                    thread::sleep(Duration::from_millis(500));
                }
                connected => return connected,
            }
        }
    }

    /// The lines of a new connection, which has been sent the records without an answer.
    fn connect_again(&self, sending: &Sending) -> Option<BufReader<TcpStream>> {
        let mut broken = sending.connection.lock().ok()?;
        let open = sending.open.lock().ok()?.clone();
        let start = Instant::now();
        while start.elapsed() < self.patience {
            if let Ok((connection, lines, _hello)) = self.connect(&open) {
                *broken = connection;
                return Some(lines);
            }
            thread::sleep(Duration::from_millis(50));
        }
        None
    }

    /// Shows the answers and gives them on, of one connection after another.
    fn read(&self, first: BufReader<TcpStream>, sending: &Sending, put: &Sender<String>) {
        let mut next = Some(first);
        while let Some(mut lines) = next {
            while let Some(answer) = next_answer(&mut lines) {
                if let Ok(mut open) = sending.open.lock() {
                    open.pop_front();
                }
                print!("{answer}");
                if put.send(answer).is_err() {
                    return;
                }
            }
            next = self.connect_again(sending);
        }
    }
}

impl Session {
    fn connect(hub: Hub) -> Result<Session> {
        let (connection, lines, hello) = hub.connect_while_full()?;
        print!("{hello}");
        let sending = Arc::new(Sending {
            connection: Mutex::new(connection),
            open: Mutex::default(),
        });
        let shared = Arc::clone(&sending);
        let (put, answers) = channel();
        thread::spawn(move || hub.read(lines, &shared, &put));
        Ok(Session {
            sending,
            answers,
            open: 0,
        })
    }

    /// The next answer.
    fn answer(&mut self) -> Result<String> {
        let answer = self.answers.recv().map_err(|_| ended())?;
        self.open -= 1;
        Ok(answer)
    }

    /// Sends a record, once fewer than sixteen are on the way. Where the connection is broken, the next one has it.
    fn send(&mut self, record: &str) -> Result<()> {
        while self.open == WINDOW {
            self.answer()?;
        }
        self.open += 1;
        let line = format!("{record}\n");
        let mut connection = self.sending.connection.lock().map_err(|_| ended())?;
        self.sending.open.lock().map_err(|_| ended())?.push_back(line.clone());
        let _ = connection.write_all(line.as_bytes());
        Ok(())
    }

    /// Waits until all answers have come, and gives the last of them.
    fn last_answer(&mut self) -> Result<String> {
        let mut last = String::new();
        while self.open > 0 {
            last = self.answer()?;
        }
        Ok(last)
    }
}

/// The number of the last item of an answer to a fetch. None where it has none.
fn last_item(answer: &str) -> Option<&str> {
    let (_, behind) = answer.rsplit_once("\"item\":")?;
    behind.split(|letter: char| !letter.is_ascii_digit()).next()
}

/// Fetches and acknowledges items until there is none.
fn empty_outbox(session: &mut Session, railway: &str) -> Result<()> {
    loop {
        session.send(&format!(r#"{{"kind":"fetch","from":"{railway}","limit":50}}"#))?;
        let fetched = session.last_answer()?;
        let Some(item) = last_item(&fetched) else {
            return Ok(());
        };
        session.send(&format!(r#"{{"kind":"ack","from":"{railway}","item":{item}}}"#))?;
        session.last_answer()?;
    }
}

fn run(hub: Hub) -> Result<()> {
    let railway = hub.railway.clone();
    let mut session = Session::connect(hub)?;
    for record in io::stdin().lines() {
        let record = record?;
        // A blank line is no record, and has no answer.
        if !record.trim().is_empty() {
            session.send(&record)?;
        }
    }
    session.last_answer()?;
    empty_outbox(&mut session, &railway)
}

/// The hub that the arguments name.
fn hub_of(arguments: &[String]) -> Option<Hub> {
    let seconds = arguments.get(3).map_or(Some(0), |it| it.parse().ok())?;
    Some(Hub {
        port: arguments.get(1)?.parse().ok()?,
        railway: arguments.get(2)?.clone(),
        patience: Duration::from_secs(seconds),
    })
}

fn main() {
    let arguments: Vec<String> = env::args().collect();
    let Some(hub) = hub_of(&arguments) else {
        eprintln!("client PORT RAILWAY [SECONDS] <RECORDS");
        process::exit(2);
    };
    if let Err(error) = run(hub) {
        eprintln!("client: {error}");
        process::exit(1);
    }
}
