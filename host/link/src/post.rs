//! The UDP socket of a program, with its clock, its line and the numbers of its peers. It sleeps until there is something to do.

use crate::keeper::Keeper;
use crate::line::Line;
use crate::notes::Notes;
use crate::peers::Peers;
use crate::step::{earliest, End, Packet, Step};
use kit::{interrupt, say};
use std::io::ErrorKind;
use std::net::{SocketAddr, ToSocketAddrs, UdpSocket};
use std::time::{Duration, Instant};

/// How long a socket in trouble is left alone, so that its lines don't fill a log.
const PAUSE: Duration = Duration::from_millis(200);
/// Any UDP datagram fits, so that one over 1,500 octets is seen as what it is and not cut.
const LONGEST: usize = 65_536;
/// What a note begins with: the socket's own address, and the address of each peer in the order of their numbers.
pub const OWN: &str = "own";
pub const PEER: &str = "peer";

pub struct Post {
    socket: UdpSocket,
    started: Instant,
    /// The time at the program's start.
    base: u64,
    line: Line,
    pub peers: Peers,
    buffer: Vec<u8>,
    waits: u64,
    keeper: Option<Keeper>,
}

/// What the socket had.
#[derive(Debug, PartialEq, Eq)]
pub enum Heard {
    Datagram(Packet),
    Nothing,
    /// An earlier datagram met a closed port.
    Closed,
    /// A line for the log.
    Trouble(String),
}

/// The first address that the text names.
pub fn address(text: &str) -> Result<SocketAddr, String> {
    let mut found = text.to_socket_addrs().map_err(|why| format!("{text:?} isn't an address such as 127.0.0.1:9201: {why}"))?;
    found.next().ok_or_else(|| format!("{text:?} names no address"))
}

impl Post {
    pub fn bind(address: SocketAddr, line: Line) -> Result<Post, String> {
        let named = |why| format!("{address} can't be used: {why}");
        let socket = UdpSocket::bind(address).map_err(named)?;
        socket.set_nonblocking(true).map_err(named)?;
        let (started, peers, buffer) = (Instant::now(), Peers::default(), vec![0; LONGEST]);
        Ok(Post { socket, started, base: 0, line, peers, buffer, waits: 0, keeper: None })
    }

    /// A socket that hears only this address, which becomes peer 0.
    pub fn towards(address: SocketAddr, line: Line) -> Result<Post, String> {
        let any = if address.is_ipv4() { SocketAddr::from(([0; 4], 0)) } else { SocketAddr::from(([0; 16], 0)) };
        Post::between(any, address, line)
    }

    /// The same, with an address of its own: whoever is at the other end knows it again by that.
    pub fn between(own: SocketAddr, address: SocketAddr, line: Line) -> Result<Post, String> {
        let mut post = Post::bind(own, line)?;
        post.socket.connect(address).map_err(|why| format!("{address} can't be reached: {why}"))?;
        post.peers.number(address);
        Ok(post)
    }

    pub fn local(&self) -> Result<SocketAddr, String> {
        self.socket.local_addr().map_err(|why| format!("the socket has no address: {why}"))
    }

    /// Milliseconds since the program's first start, those between an end and the next start left out.
    pub fn now(&self) -> u64 {
        self.base.saturating_add(u64::try_from(self.started.elapsed().as_millis()).unwrap_or(u64::MAX))
    }

    /// Goes on from this time on, so that none is below one that was.
    pub fn go_on_from(&mut self, time: u64) {
        self.started = Instant::now();
        self.base = time;
    }

    /// From now on what the end has become is kept in this file before what it sends leaves; it is so at once, or an error.
    pub fn keep_in(&mut self, keeper: Option<Keeper>, end: &impl End) -> Result<(), String> {
        self.keeper = keeper;
        self.keep(end)
    }

    /// Whether the file could be written; an error is also that it can be again.
    fn keep(&mut self, end: &impl End) -> Result<(), String> {
        if self.keeper.is_none() {
            return Ok(());
        }
        let mut notes = Notes::default();
        notes.add(OWN, self.local()?);
        self.peers.addresses().iter().for_each(|address| notes.add(PEER, address));
        notes.append(end.notes());
        self.keeper.as_mut().and_then(|keeper| keeper.keep(end.table(), &notes)).map_or(Ok(()), Err)
    }

    /// What was sent, and how often the program woke up.
    pub fn summary(&self) -> String {
        format!("{}; woke up {}", self.line, if self.waits == 1 { "once".into() } else { format!("{} times", self.waits) })
    }

    /// Keeps what this end has become, and then carries out its step. What is to be said about keeping is said at once, also where
    /// nobody wants to hear of events.
    pub fn keep_and_carry_out(&mut self, end: &impl End, step: Step) -> Vec<String> {
        self.keep(end).unwrap_or_else(|line| say::err(&line));
        self.carry_out(step)
    }

    /// Puts a step's packets on the line, sends what leaves by now, and gives back the step's lines and those on sending.
    pub fn carry_out(&mut self, step: Step) -> Vec<String> {
        let now = self.now();
        for packet in step.send {
            self.line.send(now, packet);
        }
        let mut log = step.log;
        for packet in self.line.leaving(now) {
            log.extend(self.send(&packet).err());
        }
        log
    }

    /// Sends what is still on the line, when it is due.
    pub fn empty_line(&mut self) -> Vec<String> {
        let mut log = Vec::new();
        while let Some(leaves) = self.line.next() {
            std::thread::sleep(self.still_to(leaves));
            log.extend(self.carry_out(Step::default()));
        }
        log
    }

    fn send(&self, packet: &Packet) -> Result<(), String> {
        let Packet { peer, octets } = packet;
        let address = self.peers.address(*peer).ok_or_else(|| format!("peer {peer} has no address"))?;
        match self.socket.send_to(octets, address) {
            // An earlier datagram met a closed port: that is only no answer.
            Err(why) if why.kind() != ErrorKind::ConnectionRefused => Err(format!("peer {peer}: nothing could be sent: {why}")),
            _ => Ok(()),
        }
    }

    /// Carries out what is due at this end; gives back the log's lines.
    pub fn tick(&mut self, end: &mut impl End) -> Vec<String> {
        let step = end.tick(self.now());
        self.keep_and_carry_out(end, step)
    }

    /// Sleeps until something is due at this end or on the line, until the given time if that is earlier, or until a datagram or
    /// a signal comes; carries out the datagram's step, and gives back the log's lines.
    pub fn listen(&mut self, end: &mut impl End, until: Option<u64>) -> Vec<String> {
        match self.hear(earliest(&[end.next(), self.line.next(), until])) {
            Heard::Datagram(packet) => {
                let step = end.hear(self.now(), &packet);
                self.keep_and_carry_out(end, step)
            }
            // A closed port is only no answer.
            Heard::Nothing | Heard::Closed => Vec::new(),
            Heard::Trouble(line) => vec![line],
        }
    }

    /// Waits for a datagram, until this time at most; without one, until something comes. A signal ends the wait.
    pub fn hear(&mut self, until: Option<u64>) -> Heard {
        let limit = until.map(|until| self.still_to(until));
        self.waits += 1;
        match interrupt::wait(&self.socket, limit).and_then(|()| self.socket.recv_from(&mut self.buffer)) {
            Ok((length, from)) => self.datagram(length, from),
            Err(why) => match why.kind() {
                ErrorKind::WouldBlock | ErrorKind::Interrupted => Heard::Nothing,
                ErrorKind::ConnectionRefused => Heard::Closed,
                _ => {
                    std::thread::sleep(PAUSE);
                    Heard::Trouble(format!("nothing could be received: {why}"))
                }
            },
        }
    }

    /// How long it is until `now` will be this time.
    fn still_to(&self, time: u64) -> Duration {
        Duration::from_millis(time.saturating_sub(self.base)).saturating_sub(self.started.elapsed())
    }

    fn datagram(&mut self, length: usize, from: SocketAddr) -> Heard {
        let octets = self.buffer.get(..length).unwrap_or_default().to_vec();
        let known = self.peers.count();
        match self.peers.number(from) {
            Some(peer) => Heard::Datagram(Packet { peer, octets }),
            None => {
                Heard::Trouble(format!("a datagram of {length} octets from {from} was dropped: there are {known} peers already"))
            }
        }
    }
}
