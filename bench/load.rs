//! What `bench/serve.sh` runs against a server over loopback: clients, and a bare exchange of as many bytes.
//! The first argument chooses a program, and its numbers follow.
//!
//! A program runs in steps, as those of the crate `measure` do: at the end of each it prints a number and waits
//! for a line. Meanwhile `bench.py` reads how much time the server has used.

use std::env;
use std::error::Error;
use std::io::{self, ErrorKind, Read, Write};
use std::net::{TcpListener, TcpStream};
use std::process::ExitCode;
use std::time::Instant;

const USAGE: &str =
    "usage: load ask PORT NAMES FRAMES IN_FLIGHT ROUNDS | exchange PORT NAMES FRAMES ROUNDS \
    | crowd PORT NAMES CONNECTIONS FRAMES ROUNDS TOGETHER | answer REQUEST REPLY CONNECTIONS TOGETHER";

/// The operator's token.
const TOKEN: [u8; 32] = [4; 32];

/// The epoch whose page is the first with names.
const FIRST: u64 = 2;

/// The most bytes of replies that are read at once.
const ROOM: usize = 16_384;

/// Ends a step: prints its number, and waits for a line or for the end of the input.
fn end_step(number: u64) -> io::Result<()> {
    println!("{number}");
    io::stdin().read_line(&mut String::new())?;
    Ok(())
}

/// What is asked.
#[derive(Clone, Copy)]
enum Kind {
    Head,
    LookUp,
    Register,
}

/// The name of this number: 16 bytes, so that neighbours lie far apart.
fn name_of(number: u64) -> [u8; 16] {
    let spread = number.wrapping_mul(0x9E37_79B9_7F4A_7C15);
    ((u128::from(spread) << 64) | u128::from(number)).to_be_bytes()
}

/// The key of the name of this number.
fn key_of(number: u64) -> [u8; 32] {
    let mut key = [7; 32];
    key[..16].copy_from_slice(&((u128::from(number) << 64) | 1).to_be_bytes());
    key
}

/// The numbers of the names of a round: names of the page, or new names that are to be registered.
fn numbers_of(kind: Kind, names: u64, frames: u64, round: u64) -> Vec<u64> {
    let step = (names / frames.max(1)).max(1);
    let number = |place| match kind {
        Kind::Register => names + frames * round + place,
        _ => (place * step + round) % names.max(1),
    };
    (0..frames).map(number).collect()
}

/// Appends a frame: the length of its kind and body, the kind, and the parts of the body.
fn append_frame(frames: &mut Vec<u8>, kind: u8, parts: &[&[u8]]) {
    let length = 1 + parts.iter().map(|part| part.len()).sum::<usize>();
    frames.extend_from_slice(&(length as u32).to_be_bytes());
    frames.push(kind);
    for part in parts {
        frames.extend_from_slice(part);
    }
}

/// Requests whose frames have all the same size.
struct Requests {
    frames: Vec<u8>,
    size: usize,
}

impl Requests {
    /// The requests of a kind for the names of these numbers.
    fn new(kind: Kind, numbers: &[u64]) -> Requests {
        let mut frames = Vec::new();
        for number in numbers {
            let (name, key) = (name_of(*number), key_of(*number));
            match kind {
                Kind::Head => append_frame(&mut frames, 6, &[]),
                Kind::LookUp => append_frame(&mut frames, 4, &[&[0; 8], &[0, 16], &name]),
                Kind::Register => append_frame(&mut frames, 1, &[&[0, 16], &name, &[0, 32], &key]),
            }
        }
        let size = frames.len() / numbers.len().max(1);
        Requests { frames, size }
    }

    /// The one that closes an epoch.
    fn close(epoch: u64) -> Requests {
        let mut frames = Vec::new();
        append_frame(&mut frames, 7, &[&TOKEN, &epoch.to_be_bytes()]);
        let size = frames.len();
        Requests { frames, size }
    }

    fn count(&self) -> usize {
        self.frames.len() / self.size.max(1)
    }

    /// The bytes of the next requests, of which so many are behind and so many may be sent.
    fn next(&self, behind: usize, count: usize) -> &[u8] {
        let start = (behind * self.size).min(self.frames.len());
        let end = (start + count * self.size).min(self.frames.len());
        &self.frames[start..end]
    }
}

/// How much of a frame has come: the bytes of its length, and how many bytes of the rest are wanted.
#[derive(Default)]
struct Feed {
    length: [u8; 4],
    come: usize,
    wanted: usize,
}

impl Feed {
    /// Takes a piece, and counts the frames that are whole with it.
    fn take(&mut self, mut piece: &[u8]) -> usize {
        let mut whole = 0;
        while !piece.is_empty() {
            let taken = if self.come < 4 {
                self.length[self.come] = piece[0];
                self.come += 1;
                self.wanted = u32::from_be_bytes(self.length) as usize;
                1
            } else {
                let taken = self.wanted.min(piece.len());
                self.wanted -= taken;
                taken
            };
            piece = &piece[taken..];
            if self.come == 4 && self.wanted == 0 {
                self.come = 0;
                whole += 1;
            }
        }
        whole
    }
}

/// A client of a server.
struct Client {
    stream: TcpStream,
    feed: Feed,
    room: Vec<u8>,
}

impl Client {
    /// Connects to the server on this port.
    fn new(port: usize) -> Result<Client, Box<dyn Error>> {
        let stream = TcpStream::connect(("127.0.0.1", u16::try_from(port)?))?;
        stream.set_nodelay(true)?;
        let (feed, room) = (Feed::default(), vec![0; ROOM]);
        Ok(Client { stream, feed, room })
    }

    /// Reads once. Returns the bytes, and how many replies are whole with them.
    fn take(&mut self) -> io::Result<(u64, usize)> {
        let read = self.stream.read(&mut self.room)?;
        if read == 0 {
            return Err(io::Error::new(
                ErrorKind::UnexpectedEof,
                "the server closed the connection",
            ));
        }
        Ok((read as u64, self.feed.take(&self.room[..read])))
    }

    /// Sends the requests, never more ahead of the replies than may be in flight, and counts the bytes of the
    /// replies.
    fn ask(&mut self, requests: &Requests, in_flight: usize) -> io::Result<u64> {
        let (mut bytes, mut sent, mut answered) = (0, in_flight, 0);
        self.stream.write_all(requests.next(0, in_flight))?;
        while answered < requests.count() {
            let (read, whole) = self.take()?;
            self.stream.write_all(requests.next(sent, whole))?;
            bytes += read;
            sent += whole;
            answered += whole;
        }
        Ok(bytes)
    }

    /// Registers the names of the page, and closes the epoch.
    fn fill(&mut self, names: u64) -> io::Result<()> {
        let numbers: Vec<u64> = (0..names).collect();
        self.ask(&Requests::new(Kind::Register, &numbers), 64)?;
        self.ask(&Requests::close(FIRST), 1)?;
        Ok(())
    }

    /// The steps of one kind of request: the requests made, and asked.
    fn measure(&mut self, kind: Kind, numbers: &[u64], in_flight: usize) -> io::Result<()> {
        let requests = Requests::new(kind, numbers);
        end_step(requests.size as u64)?;
        end_step(self.ask(&requests, in_flight)?)
    }
}

/// The steps: the names registered and the epoch closed; and in each round those of requests for the head, of
/// look-ups, and of registrations, each one at a time, and then with more in flight. The numbers are in turn the
/// bytes of a request and those of all replies.
fn ask(
    port: usize,
    names: u64,
    frames: u64,
    in_flight: usize,
    rounds: u64,
) -> Result<(), Box<dyn Error>> {
    let mut client = Client::new(port)?;
    client.fill(names)?;
    end_step(0)?;
    for round in 0..rounds {
        for kind in [Kind::Head, Kind::LookUp, Kind::Register] {
            client.measure(kind, &numbers_of(kind, names, frames, 2 * round), 1)?;
            client.measure(
                kind,
                &numbers_of(kind, names, frames, 2 * round + 1),
                in_flight,
            )?;
        }
    }
    Ok(())
}

/// The steps of look-ups alone, one at a time, of whatever answers on the port.
fn exchange(port: usize, names: u64, frames: u64, rounds: u64) -> Result<(), Box<dyn Error>> {
    let mut client = Client::new(port)?;
    end_step(0)?;
    for round in 0..rounds {
        client.measure(
            Kind::LookUp,
            &numbers_of(Kind::LookUp, names, frames, round),
            1,
        )?;
    }
    Ok(())
}

/// Many clients, and how many nanoseconds each look-up of a step took.
struct Crowd {
    clients: Vec<Client>,
    starts: Vec<Instant>,
    times: Vec<u64>,
}

impl Crowd {
    /// Each sends so many of the requests, of which so many are behind.
    fn send(&mut self, requests: &Requests, behind: usize, count: usize) -> io::Result<()> {
        self.starts.clear();
        for (number, client) in self.clients.iter_mut().enumerate() {
            self.starts.push(Instant::now());
            client
                .stream
                .write_all(requests.next(behind + number * count, count))?;
        }
        Ok(())
    }

    /// Each takes as many replies. Counts the bytes.
    fn take(&mut self, count: usize) -> io::Result<u64> {
        let mut bytes = 0;
        for (client, start) in self.clients.iter_mut().zip(&self.starts) {
            let mut left = count;
            while left > 0 {
                let (read, whole) = client.take()?;
                let time = start.elapsed().as_nanos() as u64;
                self.times.extend((0..whole).map(|_| time));
                bytes += read;
                left = left.saturating_sub(whole);
            }
        }
        Ok(bytes)
    }

    /// The requests, of each client so many at a time, and as many of each. Counts the bytes of the replies.
    fn ask(&mut self, requests: &Requests, together: usize) -> io::Result<u64> {
        let mut bytes = 0;
        self.times.clear();
        let of_all = self.clients.len() * together;
        for batch in 0..requests.count() / of_all.max(1) {
            self.send(requests, batch * of_all, together)?;
            bytes += self.take(together)?;
        }
        self.times.sort_unstable();
        Ok(bytes)
    }

    /// The time of this part of a hundred of the look-ups.
    fn time_at(&self, part: usize) -> u64 {
        let last = self.times.len().saturating_sub(1);
        let place = (self.times.len() * part / 100).min(last);
        self.times.get(place).copied().unwrap_or(0)
    }
}

/// The steps: the connections made; and in each round the requests made, and asked, and then the nanoseconds
/// within which 50, 99 and 100 of a hundred look-ups were answered.
fn crowd(
    port: usize,
    names: u64,
    connections: u64,
    frames: u64,
    rounds: u64,
    together: usize,
) -> Result<(), Box<dyn Error>> {
    let clients = (0..connections)
        .map(|_| Client::new(port))
        .collect::<Result<_, _>>()?;
    let mut crowd = Crowd {
        clients,
        starts: Vec::new(),
        times: Vec::new(),
    };
    end_step(0)?;
    for round in 0..rounds {
        let requests = Requests::new(
            Kind::LookUp,
            &numbers_of(Kind::LookUp, names, frames, round),
        );
        end_step(requests.size as u64)?;
        end_step(crowd.ask(&requests, together)?)?;
        for part in [50, 99, 100] {
            end_step(crowd.time_at(part))?;
        }
    }
    Ok(())
}

/// A frame of so many bytes.
fn frame_of(bytes: usize) -> Vec<u8> {
    let mut frame = (bytes.saturating_sub(4) as u32).to_be_bytes().to_vec();
    frame.resize(bytes.max(4), 0);
    frame
}

/// Answers so many connections, each in turn: so many requests, of so many bytes each, whatever is in them, with as
/// many replies of so many bytes. The one step tells the port.
fn answer(
    request: usize,
    reply: usize,
    connections: u64,
    together: usize,
) -> Result<(), Box<dyn Error>> {
    let listener = TcpListener::bind("127.0.0.1:0")?;
    end_step(u64::from(listener.local_addr()?.port()))?;
    let mut streams = Vec::new();
    for _ in 0..connections {
        let (stream, _) = listener.accept()?;
        stream.set_nodelay(true)?;
        streams.push(stream);
    }
    let mut requests = vec![0; request * together];
    let replies = frame_of(reply).repeat(together);
    while !streams.is_empty() {
        for stream in &mut streams {
            if stream.read_exact(&mut requests).is_err() {
                return Ok(());
            }
            stream.write_all(&replies)?;
        }
    }
    Ok(())
}

fn run(program: &str, numbers: &[u64]) -> Result<(), Box<dyn Error>> {
    match (program, numbers) {
        ("ask", &[port, names, frames, in_flight, rounds]) => {
            ask(port as usize, names, frames, in_flight as usize, rounds)
        }
        ("exchange", &[port, names, frames, rounds]) => {
            exchange(port as usize, names, frames, rounds)
        }
        ("crowd", &[port, names, connections, frames, rounds, together]) => crowd(
            port as usize,
            names,
            connections,
            frames,
            rounds,
            together as usize,
        ),
        ("answer", &[request, reply, connections, together]) => answer(
            request as usize,
            reply as usize,
            connections,
            together as usize,
        ),
        _ => Err(USAGE.into()),
    }
}

fn main() -> ExitCode {
    let words: Vec<String> = env::args().skip(1).collect();
    let (program, rest) = words
        .split_first()
        .map_or(("", &[][..]), |(first, rest)| (first, rest));
    let numbers: Result<Vec<u64>, _> = rest.iter().map(|word| word.parse()).collect();
    let ended = match numbers {
        Ok(numbers) => run(program, &numbers),
        Err(_) => Err(USAGE.into()),
    };
    if let Err(error) = ended {
        eprintln!("load: {error}");
        return ExitCode::FAILURE;
    }
    ExitCode::SUCCESS
}
