//! A gateway: it takes the TCP connections to any address that come out of a TUN device of Linux, and joins each to a connection of the machine's own sockets
//! to that address. So programs of a network namespace, or the far end of a tunnel, reach what the machine reaches.
//!
//! A TUN device gives IPv4 datagrams. One that opens a connection waits until the machine's own socket is open, or is refused: then the client is refused too.
//! The destination is rewritten to a port of the host of this stack at which a listener waits for this one flow, and back in what that host answers;
//! checksums are put right by what changed (RFC 1624), and the MSS of each SYN is cut to the device's MTU. The host wants Ethernet: 14 octets stand in front
//! of each datagram, and its one ARP request, for the hop to all addresses, is answered here. `embed/build` makes it; `embed/try-examples` tries it.

use hostc::{Config, Error, Host, Kind, Recovery, Route, SocketId, State, FRAME_SIZE};
use std::collections::HashMap;
use std::ffi::{c_int, c_ulong, c_void};
use std::fs::{File, OpenOptions};
use std::hash::{BuildHasher, RandomState};
use std::io::{self, ErrorKind, Read, Write};
use std::net::{Ipv4Addr, Shutdown, SocketAddrV4, TcpStream};
use std::os::fd::{AsRawFd, RawFd};
use std::os::unix::{fs::OpenOptionsExt, net::UnixStream};
use std::process::ExitCode;
use std::sync::mpsc::{channel, Receiver, Sender};
use std::thread;
use std::time::{Duration, Instant};

const USAGE: &str = "\
Usage: nat [--tun NAME] [--addr ADDRESS] [--mtu OCTETS]

Makes a TUN device and takes the TCP connections to any address that come out of it: each is joined to one of the machine's own sockets. It ends by a
signal, and the device with it. As root, with a namespace `inside` whose programs reach what the machine reaches:

    nat --tun tun0 &
    ip netns add inside && ip link set tun0 netns inside
    ip -n inside addr add 10.0.0.2/24 dev tun0 && ip -n inside link set tun0 up && ip -n inside route add default dev tun0
    ip netns exec inside curl http://192.0.2.1/

  --tun NAME      the device (tun0)
  --addr ADDRESS  the gateway's own address, which answers ping (10.0.0.1)
  --mtu OCTETS    the most octets of a datagram, 576 to 1500; the MSS of each SYN is cut to it (1500)
  --help          this text
";

/// The host's MAC, and that of the one hop which it has, by an address that nobody uses (RFC 3927).
const HOST_MAC: [u8; 6] = [2, 0, 0, 0, 0, 1];
const HOP_MAC: [u8; 6] = [2, 0, 0, 0, 0, 2];
const HOP: Ipv4Addr = Ipv4Addr::new(169, 254, 0, 1);
const ETHERNET_HEAD: usize = 14;
const IPV4: [u8; 2] = [0x08, 0x00];
const ARP: [u8; 2] = [0x08, 0x06];
/// How many connections there are at a time: its host has 64 places, of which one that opens takes two. A SYN that finds none comes again.
const MOST_FLOWS: usize = 32;
/// Packets that one turn takes, and the octets of each; a longer one is cut, and then it is none.
const MOST_PACKETS: usize = 64;
const MOST_OCTETS: usize = 2048;
/// How long the machine's own socket may take to open, and the client to answer the SYN-ACK.
const PATIENCE: Duration = Duration::from_secs(20);
/// How many milliseconds a connection that both sides have closed keeps its place, where it would wait for 240,000 (RFC 9293 section 3.6.1).
const LINGER: u64 = 1000;
/// How many milliseconds the ports of a flow are kept that is over, for what is still on its way.
const MEMORY: u64 = 60_000;
/// After how many milliseconds a silent client is asked whether it is there.
const KEEPALIVE: u64 = 60_000;

/// What `std` has no name for, of the system's C library.
mod system {
    use super::*;

    #[repr(C)]
    pub struct Polled {
        pub descriptor: RawFd,
        pub events: i16,
        pub came: i16,
    }

    pub const READABLE: i16 = 1;
    pub const WRITABLE: i16 = 4;
    const NONBLOCK: i32 = 0o4000;
    const SET_DEVICE: c_ulong = 0x4004_54ca; // TUNSETIFF
    const TUN_WITHOUT_HEAD: u16 = 0x1001; // IFF_TUN, IFF_NO_PI
    const SOCKET_LEVEL: c_int = 1;
    const SOCKET_LINGER: c_int = 13;

    extern "C" {
        fn ioctl(descriptor: c_int, request: c_ulong, ...) -> c_int;
        fn poll(polled: *mut Polled, count: c_ulong, milliseconds: c_int) -> c_int;
        fn setsockopt(descriptor: c_int, level: c_int, name: c_int, value: *const c_void, len: u32) -> c_int;
    }

    /// A TUN device that gives and takes a datagram at a time, and doesn't wait.
    pub fn open_tun(name: &str) -> io::Result<File> {
        let mut request = [0u8; 40];
        if name.is_empty() || name.len() > 15 {
            return Err(io::Error::new(ErrorKind::InvalidInput, "a device's name has 1 to 15 octets"));
        }
        request[..name.len()].copy_from_slice(name.as_bytes());
        request[16..18].copy_from_slice(&TUN_WITHOUT_HEAD.to_ne_bytes());
        let tun = OpenOptions::new().read(true).write(true).custom_flags(NONBLOCK).open("/dev/net/tun")?;
        match unsafe { ioctl(tun.as_raw_fd(), SET_DEVICE, request.as_mut_ptr()) } {
            0 => Ok(tun),
            _ => Err(io::Error::last_os_error()),
        }
    }

    /// Waits until one of them is ready, or so many milliseconds have passed, where there is an end to it.
    pub fn wait(polled: &mut [Polled], milliseconds: Option<u64>) -> io::Result<()> {
        let most = milliseconds.map_or(-1, |it| c_int::try_from(it).unwrap_or(c_int::MAX));
        if unsafe { poll(polled.as_mut_ptr(), polled.len() as c_ulong, most) } >= 0 {
            return Ok(());
        }
        match io::Error::last_os_error() {
            error if error.kind() == ErrorKind::Interrupted => Ok(()),
            error => Err(error),
        }
    }

    /// Closes a stream by a reset, so that its other end doesn't take what came for the whole.
    pub fn reset(stream: TcpStream) {
        let on_for_no_time: [c_int; 2] = [1, 0];
        unsafe { setsockopt(stream.as_raw_fd(), SOCKET_LEVEL, SOCKET_LINGER, on_for_no_time.as_ptr().cast(), 8) };
    }
}

/// A datagram with a TCP segment, which is rewritten in place (RFC 791 section 3.1, RFC 9293 section 3.1).
struct Segment<'a> {
    octets: &'a mut [u8],
    /// Where the segment begins, and where its data.
    head: usize,
    data: usize,
}

impl<'a> Segment<'a> {
    /// The segment that a datagram carries. None where it carries none, or one without its form, or is a fragment.
    fn of(datagram: &'a mut [u8]) -> Option<Segment<'a>> {
        let length = length_of(datagram)?;
        let octets = &mut datagram[..length];
        let head = usize::from(octets[0] & 15) * 4;
        let is_part = octets[6] & 0x3f != 0 || octets[7] != 0;
        if octets[9] != 6 || is_part || head < 20 || length < head + 20 {
            return None;
        }
        let data = head + usize::from(octets[head + 12] >> 4) * 4;
        (head + 20..=length).contains(&data).then_some(Segment { octets, head, data })
    }

    fn word(&self, at: usize) -> u16 {
        u16::from_be_bytes([self.octets[at], self.octets[at + 1]])
    }

    fn end(&self, addr: usize, port: usize) -> SocketAddrV4 {
        let [a, b, c, d] = [0, 1, 2, 3].map(|i| self.octets[addr + i]);
        SocketAddrV4::new(Ipv4Addr::new(a, b, c, d), self.word(self.head + port))
    }

    fn source(&self) -> SocketAddrV4 {
        self.end(12, 0)
    }

    fn target(&self) -> SocketAddrV4 {
        self.end(16, 2)
    }

    fn has_syn(&self) -> bool {
        self.octets[self.head + 13] & 2 != 0
    }

    /// Whether it is a SYN without ACK and RST.
    fn opens(&self) -> bool {
        self.octets[self.head + 13] & 0x16 == 2
    }

    fn set_source(&mut self, end: SocketAddrV4) {
        self.set_end(12, 0, end);
    }

    fn set_target(&mut self, end: SocketAddrV4) {
        self.set_end(16, 2, end);
    }

    fn set_end(&mut self, addr: usize, port: usize, end: SocketAddrV4) {
        let (header_sum, segment_sum) = (10, self.head + 16);
        self.put(addr, &end.ip().octets(), &[header_sum, segment_sum]);
        self.put(self.head + port, &end.port().to_be_bytes(), &[segment_sum]);
    }

    /// Writes octets, and puts the checksums right that stand at these places, each 16-bit word by itself.
    fn put(&mut self, at: usize, new: &[u8], sums: &[usize]) {
        let words = (at & !1)..(at + new.len()).next_multiple_of(2);
        let old: Vec<u16> = words.clone().step_by(2).map(|at| self.word(at)).collect();
        self.octets[at..at + new.len()].copy_from_slice(new);
        for (at, old) in words.step_by(2).zip(old) {
            for &sum in sums {
                let updated = updated_sum(self.word(sum), old, self.word(at));
                self.octets[sum..sum + 2].copy_from_slice(&updated.to_be_bytes());
            }
        }
    }

    /// Cuts the MSS that a SYN tells to `most` (RFC 9293 section 3.7.1). One that tells none stays so: it stands for 536.
    fn clamp(&mut self, most: u16) {
        let mut at = self.head + 20;
        while self.has_syn() && at + 4 <= self.data {
            match (self.octets[at], usize::from(self.octets[at + 1])) {
                (0, _) => return,
                (1, _) => at += 1,
                (2, 4) => {
                    let told = u16::from_be_bytes([self.octets[at + 2], self.octets[at + 3]]);
                    let sum = self.head + 16;
                    return self.put(at + 2, &told.min(most).to_be_bytes(), &[sum]);
                }
                (_, 0 | 1) => return,
                (_, len) => at += len,
            }
        }
    }
}

/// The octets of a datagram by its own word, without what fills its frame. None where it isn't one.
fn length_of(datagram: &[u8]) -> Option<usize> {
    let length = usize::from(u16::from_be_bytes([*datagram.get(2)?, *datagram.get(3)?]));
    (datagram[0] >> 4 == 4 && (20..=datagram.len()).contains(&length)).then_some(length)
}

/// The checksum of octets of which one word has changed: HC' = ~(~HC + ~m + m') (RFC 1624 section 3).
fn updated_sum(sum: u16, old: u16, new: u16) -> u16 {
    let total = u32::from(!sum) + u32::from(!old) + u32::from(new);
    let folded = (total & 0xffff) + (total >> 16);
    !((folded & 0xffff) + (folded >> 16)) as u16
}

/// The ends of a connection as the client knows them: its own, and that which it calls.
type Ends = (SocketAddrV4, SocketAddrV4);

/// A connection of a client, at a port of the host that is its own.
struct Flow {
    ends: Ends,
    stage: Stage,
}

enum Stage {
    /// The machine's own socket is opening; the client's SYN waits here.
    Opening(Vec<u8>),
    /// The host has the SYN, and is waited for until this moment.
    Accepting(SocketId, TcpStream, u64),
    /// Octets go both ways.
    Open(Relay),
    /// It is over, or was refused, and is forgotten at this moment.
    Over(u64),
}

/// What carries octets between a connection of the host and a stream of the machine.
struct Relay {
    id: SocketId,
    stream: TcpStream,
    /// What the client sent, and the stream has not taken yet.
    outward: Vec<u8>,
    /// Whether the stream was read to its end, and whether the client's was.
    is_inward_done: bool,
    is_outward_done: bool,
    /// When it gives its place back.
    ends: Option<u64>,
}

/// A relay that goes on, and one that doesn't.
#[derive(PartialEq)]
enum Fate {
    Goes,
    Ended,
    Failed,
}

impl Relay {
    fn new(id: SocketId, stream: TcpStream) -> Relay {
        Relay {
            id,
            stream,
            outward: Vec::new(),
            is_inward_done: false,
            is_outward_done: false,
            ends: None,
        }
    }

    /// What its stream is waited for: room, where octets wait; and octets, where the host has room for them.
    fn events(&self, host: &mut Host) -> i16 {
        let reads = !self.is_inward_done && host.send_room(self.id).is_ok_and(|room| room > 0);
        let writes = !self.outward.is_empty();
        i16::from(reads) * system::READABLE + i16::from(writes) * system::WRITABLE
    }

    /// Carries what can be carried now.
    fn carry(&mut self, host: &mut Host, now: u64, buffer: &mut [u8]) -> Fate {
        if self.carry_inward(host, buffer).is_err() || self.carry_outward(host, buffer).is_err() {
            return Fate::Failed;
        }
        if self.is_inward_done && self.is_outward_done {
            return self.end(host, now);
        }
        Fate::Goes
    }

    /// From the stream to the client.
    fn carry_inward(&mut self, host: &mut Host, buffer: &mut [u8]) -> io::Result<()> {
        while !self.is_inward_done {
            let room = host.send_room(self.id).map_err(io::Error::other)?.min(buffer.len());
            if room == 0 {
                break;
            }
            let Some(len) = unless_it_waits(self.stream.read(&mut buffer[..room]))? else {
                break;
            };
            if len == 0 {
                host.shutdown_write(self.id).map_err(io::Error::other)?;
                self.is_inward_done = true;
            } else {
                host.send(self.id, &buffer[..len]).map_err(io::Error::other)?;
            }
        }
        Ok(())
    }

    /// From the client to the stream.
    fn carry_outward(&mut self, host: &mut Host, buffer: &mut [u8]) -> io::Result<()> {
        while !self.is_outward_done {
            if self.outward.is_empty() {
                match host.recv(self.id, buffer) {
                    Ok(0) => {
                        self.is_outward_done = true;
                        return self.stream.shutdown(Shutdown::Write);
                    }
                    Ok(len) => self.outward.extend_from_slice(&buffer[..len]),
                    Err(Error::EAGAIN) => return Ok(()),
                    Err(error) => return Err(io::Error::other(error)),
                }
            }
            match unless_it_waits(self.stream.write(&self.outward))? {
                Some(len) => drop(self.outward.drain(..len)),
                None => return Ok(()),
            }
        }
        Ok(())
    }

    /// Both sides are closed: its place is free once the host has nothing to send any more. TIME-WAIT is cut short.
    fn end(&mut self, host: &mut Host, now: u64) -> Fate {
        match host.state(self.id) {
            Ok(State::TimeWait) if *self.ends.get_or_insert(now + LINGER) <= now => Fate::Ended,
            Ok(State::Closed) | Err(_) => Fate::Ended,
            Ok(_) => Fate::Goes,
        }
    }
}

/// What a call of a stream answered; None where it would have to wait.
fn unless_it_waits(answer: io::Result<usize>) -> io::Result<Option<usize>> {
    match answer {
        Ok(len) => Ok(Some(len)),
        Err(error) if matches!(error.kind(), ErrorKind::WouldBlock | ErrorKind::Interrupted) => Ok(None),
        Err(error) => Err(error),
    }
}

/// What a thread tells that opened a socket of the machine: the flow's port, and the socket.
type Opened = (u16, io::Result<TcpStream>);

struct Gateway {
    host: Host,
    addr: Ipv4Addr,
    most_segment: u16,
    tun: File,
    flows: HashMap<u16, Flow>,
    ports: HashMap<Ends, u16>,
    last_port: u16,
    teller: Sender<Opened>,
    told: Receiver<Opened>,
    /// What wakes the loop where a thread has told something.
    waker: UnixStream,
    woken: UnixStream,
    secret: RandomState,
    origin: Instant,
    now: u64,
}

impl Gateway {
    fn new(options: &Options) -> io::Result<Gateway> {
        let routes = [(HOP, 32, None), (Ipv4Addr::UNSPECIFIED, 0, Some(HOP))].map(|(prefix, length, gateway)| Route { prefix, length, gateway });
        let config = Config::new(HOST_MAC, options.addr, &routes).with_recovery(Recovery::Selective).with_first_segments(10);
        let host = Host::new(&config.with_least_timeout(200).with_threshold(1 << 30))
            .map_err(|error| io::Error::other(format!("no host can be at {}: {error}", options.addr)))?;
        let (teller, told) = channel();
        let (waker, woken) = UnixStream::pair()?;
        woken.set_nonblocking(true)?;
        Ok(Gateway {
            host,
            addr: options.addr,
            most_segment: options.mtu - 40,
            tun: system::open_tun(&options.tun)?,
            flows: HashMap::new(),
            ports: HashMap::new(),
            last_port: 1023,
            teller,
            told,
            waker,
            woken,
            secret: RandomState::new(),
            origin: Instant::now(),
            now: 0,
        })
    }

    /// Serves until the device can't be read.
    fn run(&mut self) -> io::Result<()> {
        let mut buffer = vec![0; 1 << 16];
        loop {
            self.wait()?;
            self.now = self.origin.elapsed().as_millis() as u64;
            self.host.tick(self.now);
            self.take_packets()?;
            self.take_opened();
            self.carry(&mut buffer);
            self.forget();
            self.drain()?;
        }
    }

    /// Waits until a packet comes, a socket of the machine is open or ready, or something is due.
    fn wait(&mut self) -> io::Result<()> {
        let watch = |descriptor, events| system::Polled { descriptor, events, came: 0 };
        let mut polled = vec![watch(self.tun.as_raw_fd(), system::READABLE), watch(self.woken.as_raw_fd(), system::READABLE)];
        let mut moment = self.host.next_deadline();
        for flow in self.flows.values() {
            let due = match &flow.stage {
                Stage::Opening(_) => None,
                Stage::Accepting(_, _, until) | Stage::Over(until) => Some(*until),
                Stage::Open(relay) => {
                    match relay.events(&mut self.host) {
                        0 => (),
                        events => polled.push(watch(relay.stream.as_raw_fd(), events)),
                    }
                    relay.ends
                }
            };
            moment = [moment, due].into_iter().flatten().min();
        }
        let now = self.origin.elapsed().as_millis() as u64;
        system::wait(&mut polled, moment.map(|moment| moment.saturating_sub(now)))
    }

    /// Each packet is taken alone, so that what it draws goes out before the next needs the room.
    fn take_packets(&mut self) -> io::Result<()> {
        let mut packet = [0; MOST_OCTETS];
        for _ in 0..MOST_PACKETS {
            let Some(len) = unless_it_waits(self.tun.read(&mut packet))? else {
                return Ok(());
            };
            self.take_packet(&mut packet[..len]);
            self.drain()?;
        }
        Ok(())
    }

    fn take_packet(&mut self, packet: &mut [u8]) {
        let Some(mut segment) = Segment::of(packet) else {
            return self.take_other(packet);
        };
        segment.clamp(self.most_segment);
        let (ends, opens) = ((segment.source(), segment.target()), segment.opens());
        if *ends.1.ip() == self.addr {
            return self.deliver(segment.octets);
        }
        let port = match self.ports.get(&ends).map(|port| (*port, &self.flows[port].stage)) {
            Some((port, Stage::Over(_))) if opens => {
                self.remove(port);
                None
            }
            Some((_, Stage::Opening(_))) => return,
            Some((port, _)) => Some(port),
            None => None,
        };
        match port {
            Some(port) => self.deliver_to(port, segment.octets),
            None if opens => self.open(ends, segment.octets),
            // It is of a connection that nobody knows here: the host answers it by a reset.
            None => {
                if let Some(port) = self.add(ends, Stage::Over(self.now + MEMORY)) {
                    self.deliver_to(port, segment.octets);
                }
            }
        }
    }

    /// Another packet than a segment: one that is for the gateway itself, as a ping.
    fn take_other(&mut self, packet: &mut [u8]) {
        if length_of(packet).is_some() && packet[16..20] == self.addr.octets() {
            self.deliver(packet);
        }
    }

    /// A client calls: a thread of its own opens the machine's socket, as that may wait.
    fn open(&mut self, ends: Ends, syn: &[u8]) {
        let Ok(mut waker) = self.waker.try_clone() else { return };
        if !self.has_room() {
            return;
        }
        let Some(port) = self.add(ends, Stage::Opening(syn.to_vec())) else { return };
        let teller = self.teller.clone();
        thread::spawn(move || {
            let opened = TcpStream::connect_timeout(&ends.1.into(), PATIENCE);
            // Where the gateway is gone there is nobody to tell.
            let _ = teller.send((port, opened)).map(|()| waker.write_all(&[0]));
        });
    }

    /// Whether one more flow may open. Where there are too many, one in TIME-WAIT gives way.
    fn has_room(&mut self) -> bool {
        if self.flows.values().filter(|flow| !matches!(flow.stage, Stage::Over(_))).count() < MOST_FLOWS {
            return true;
        }
        let oldest = self.flows.values_mut().filter_map(|flow| Some((flow.ends()?, flow))).min_by_key(|(ends, _)| *ends);
        oldest.map(|(_, flow)| flow.end(&mut self.host, Fate::Ended, self.now + MEMORY)).is_some()
    }

    /// A flow at a port of its own. None where all are taken.
    fn add(&mut self, ends: Ends, stage: Stage) -> Option<u16> {
        let next = |port: u16| if port == u16::MAX { 1024 } else { port + 1 };
        let mut port = next(self.last_port);
        while self.flows.contains_key(&port) {
            if port == self.last_port {
                return None;
            }
            port = next(port);
        }
        self.last_port = port;
        self.ports.insert(ends, port);
        self.flows.insert(port, Flow { ends, stage });
        Some(port)
    }

    fn remove(&mut self, port: u16) {
        if let Some(flow) = self.flows.remove(&port) {
            self.ports.remove(&flow.ends);
        }
    }

    /// The sockets that are open now, or refused: the host hears of the SYN that waited. Without a listener it refuses that.
    fn take_opened(&mut self) {
        let _ = self.woken.read(&mut [0; 64]);
        while let Ok((port, opened)) = self.told.try_recv() {
            let accepting = opened.ok().and_then(|stream| self.listen(port, stream));
            let stage = accepting.unwrap_or(Stage::Over(self.now + MEMORY));
            if let Some(flow) = self.flows.get_mut(&port) {
                if let Stage::Opening(mut syn) = std::mem::replace(&mut flow.stage, stage) {
                    self.deliver_to(port, &mut syn);
                }
            }
        }
    }

    /// A listener for the one connection of a flow.
    fn listen(&mut self, port: u16, stream: TcpStream) -> Option<Stage> {
        stream.set_nonblocking(true).and_then(|()| stream.set_nodelay(true)).ok()?;
        let listener = self.host.socket(Kind::Tcp).ok()?;
        let bound = self.host.bind(listener, SocketAddrV4::new(Ipv4Addr::UNSPECIFIED, port));
        if bound.and_then(|()| self.host.listen(listener, 1)).is_err() {
            let _ = self.host.close(listener);
            return None;
        }
        Some(Stage::Accepting(listener, stream, self.now + PATIENCE.as_millis() as u64))
    }

    /// Hands a client's segment to the host, at the port of its flow.
    fn deliver_to(&mut self, port: u16, datagram: &mut [u8]) {
        let here = SocketAddrV4::new(self.addr, port);
        if let Some(mut segment) = Segment::of(datagram) {
            segment.set_target(here);
            self.deliver(segment.octets);
        }
    }

    /// Hands a datagram to the host, in a frame of its hop. What the host drops is lost, as on any link.
    fn deliver(&mut self, datagram: &[u8]) {
        let frame = [&HOST_MAC[..], &HOP_MAC, &IPV4, datagram].concat();
        let isn = self.isn(&frame);
        let _ = self.host.deliver(self.now, isn, &frame);
    }

    /// The initial number of the connection that a frame opens: a clock of 4 microseconds and a keyed hash of both ends (RFC 6528).
    fn isn(&mut self, frame: &[u8]) -> u32 {
        let clock = (self.origin.elapsed().as_micros() / 4) as u32;
        self.host.would_open(frame).map_or(0, |pair| clock.wrapping_add(self.secret.hash_one(pair) as u32))
    }

    /// Accepts, and carries octets.
    fn carry(&mut self, buffer: &mut [u8]) {
        let over = self.now + MEMORY;
        for flow in self.flows.values_mut() {
            flow.stage = match std::mem::replace(&mut flow.stage, Stage::Over(over)) {
                Stage::Accepting(listener, stream, until) => accept(&mut self.host, listener, stream, until),
                stage => stage,
            };
            if let Stage::Open(relay) = &mut flow.stage {
                match relay.carry(&mut self.host, self.now, buffer) {
                    Fate::Goes => (),
                    fate => flow.end(&mut self.host, fate, over),
                }
            }
        }
    }

    /// Forgets flows that have been over for long, and closes the listeners of clients that are gone.
    fn forget(&mut self) {
        let late: Vec<u16> = self.flows.iter().filter(|(_, flow)| flow.is_late(self.now)).map(|(port, _)| *port).collect();
        for port in late {
            if let Some(Stage::Accepting(listener, stream, _)) = self.flows.remove(&port).map(|flow| {
                self.ports.remove(&flow.ends);
                flow.stage
            }) {
                let _ = self.host.close(listener);
                system::reset(stream);
            }
        }
    }

    /// Sends what is due.
    fn drain(&mut self) -> io::Result<()> {
        let mut frame = [0; FRAME_SIZE];
        while let Some(len) = self.host.next_frame(self.now, &mut frame).map(<[u8]>::len) {
            if frame[12..14] == ARP {
                self.answer_arp(&frame[..len]);
            } else {
                self.send(&mut frame[ETHERNET_HEAD..len])?;
            }
        }
        Ok(())
    }

    /// Tells the MAC of the hop (RFC 826).
    fn answer_arp(&mut self, request: &[u8]) {
        let reply = [&HOST_MAC[..], &HOP_MAC, &ARP, &request[14..20], &[0, 2], &HOP_MAC, &request[38..42], &request[22..32]].concat();
        let _ = self.host.deliver(self.now, 0, &reply);
    }

    /// Sends a datagram of the host to the client, from the end that this one called. What the device doesn't take is lost; TCP sends it again.
    fn send(&mut self, datagram: &mut [u8]) -> io::Result<()> {
        let Some(length) = length_of(datagram) else { return Ok(()) };
        if let Some(mut segment) = Segment::of(datagram) {
            segment.clamp(self.most_segment);
            if let Some(flow) = self.flows.get(&segment.source().port()) {
                segment.set_source(flow.ends.1);
            }
        }
        let _ = self.tun.write(&datagram[..length]);
        Ok(())
    }
}

impl Flow {
    /// Gives the place of an open connection back: a failure goes on to the stream as a reset.
    fn end(&mut self, host: &mut Host, fate: Fate, over: u64) {
        if let Stage::Open(relay) = std::mem::replace(&mut self.stage, Stage::Over(over)) {
            let _ = host.abort(relay.id);
            if fate == Fate::Failed {
                system::reset(relay.stream);
            }
        }
    }

    /// When it gives its place back, of one in TIME-WAIT.
    fn ends(&self) -> Option<u64> {
        match &self.stage {
            Stage::Open(relay) => relay.ends,
            _ => None,
        }
    }

    /// Whether its time is over.
    fn is_late(&self, now: u64) -> bool {
        matches!(self.stage, Stage::Accepting(_, _, until) | Stage::Over(until) if until <= now)
    }
}

/// What becomes of a flow whose client is to answer: once it did the listener has done its work.
fn accept(host: &mut Host, listener: SocketId, stream: TcpStream, until: u64) -> Stage {
    let Ok((id, _)) = host.accept(listener) else {
        return Stage::Accepting(listener, stream, until);
    };
    let _ = host.close(listener);
    let _ = host.set_nodelay(id, true);
    let _ = host.set_keepalive(id, Some(KEEPALIVE));
    Stage::Open(Relay::new(id, stream))
}

struct Options {
    tun: String,
    addr: Ipv4Addr,
    mtu: u16,
}

/// What the words ask for; None where they ask for help. A fault is told in a line.
fn read_options(mut words: impl Iterator<Item = String>) -> Result<Option<Options>, String> {
    let mut options = Options {
        tun: "tun0".into(),
        addr: Ipv4Addr::new(10, 0, 0, 1),
        mtu: 1500,
    };
    while let Some(word) = words.next() {
        if word == "--help" {
            return Ok(None);
        }
        if !["--tun", "--addr", "--mtu"].contains(&word.as_str()) {
            return Err(format!("no such option: '{word}'"));
        }
        let Some(value) = words.next() else {
            return Err(format!("{word} wants a value"));
        };
        match word.as_str() {
            "--tun" => options.tun = value,
            "--addr" => options.addr = value.parse().ok().filter(|it| *it != HOP).ok_or(format!("'{value}' is no address for the gateway"))?,
            _ => options.mtu = value.parse().ok().filter(|it| (576..=1500).contains(it)).ok_or(format!("'{value}' is no MTU from 576 to 1500"))?,
        }
    }
    Ok(Some(options))
}

fn main() -> ExitCode {
    let options = match read_options(std::env::args().skip(1)) {
        Ok(Some(options)) => options,
        Ok(None) => {
            print!("{USAGE}");
            return ExitCode::SUCCESS;
        }
        Err(fault) => {
            eprintln!("nat: {fault}; nat --help tells how");
            return ExitCode::from(2);
        }
    };
    let served = Gateway::new(&options).and_then(|mut gateway| {
        println!("nat: {} is there, and {} answers on it", options.tun, options.addr);
        gateway.run()
    });
    if let Err(error) = served {
        eprintln!("nat: {}: {error}", options.tun);
    }
    ExitCode::FAILURE
}
