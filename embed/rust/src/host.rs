//! The host, and its calls.

use crate::c;
use crate::error::{DropCause, Error};
use crate::ready::Ready;
use crate::{FRAME_SIZE, ROUTES};
use core::mem::size_of;
use core::net::{Ipv4Addr, SocketAddrV4};
use core::ptr::null_mut;

/// What a socket is of.
#[derive(Clone, Copy, Debug, PartialEq, Eq, Hash)]
pub enum Kind {
    /// A stream.
    Tcp = 1,
    /// Datagrams.
    Udp = 2,
}

/// The id of a socket. Ids count from 1 and are never used again.
#[derive(Clone, Copy, Debug, PartialEq, Eq, PartialOrd, Ord, Hash)]
pub struct SocketId(pub u64);

/// The state of a socket: those of RFC 9293 section 3.3.2, and that of every UDP socket.
#[derive(Clone, Copy, Debug, PartialEq, Eq, Hash)]
#[allow(missing_docs)]
pub enum State {
    Closed,
    Listen,
    SynSent,
    SynReceived,
    Established,
    FinWait1,
    FinWait2,
    CloseWait,
    Closing,
    LastAck,
    TimeWait,
    Datagram,
}

/// The states, in the order of their numbers.
const STATES: [State; 12] = [
    State::Closed,
    State::Listen,
    State::SynSent,
    State::SynReceived,
    State::Established,
    State::FinWait1,
    State::FinWait2,
    State::CloseWait,
    State::Closing,
    State::LastAck,
    State::TimeWait,
    State::Datagram,
];

impl State {
    pub(crate) fn of(number: i64) -> Option<State> {
        STATES.get(usize::try_from(number).ok()?).copied()
    }
}

/// Both ends of a connection, the one with the lesser address first, of equal ones that with the lesser port.
pub type Pair = [SocketAddrV4; 2];

/// A route: to the addresses that share the first `length` bits of `prefix`, whose other bits are 0, by the gateway, or without one where they are on
/// the link. The longest prefix that an address has counts.
#[derive(Clone, Copy, Debug, PartialEq, Eq)]
pub struct Route {
    /// The first address.
    pub prefix: Ipv4Addr,
    /// How many bits the prefix has.
    pub length: u8,
    /// Who passes datagrams on.
    pub gateway: Option<Ipv4Addr>,
}

/// How losses are repaired.
#[derive(Clone, Copy, Debug, PartialEq, Eq, Hash)]
pub enum Recovery {
    /// By RFC 5681 section 3.2 alone.
    Plain = 0,
    /// By that with RFC 6582, 3042 and 3465.
    NewReno = 1,
    /// As `NewReno` where the peer takes no selective acknowledgements; else acknowledgements report what is kept ahead of a gap (RFC 2018), and what
    /// the peer reports rules what goes out again (RFC 6675).
    Selective = 2,
}

/// How large a host is: how much it has room for, and so how much memory it takes.
#[derive(Clone, Copy, Debug, PartialEq, Eq, Hash)]
pub struct Sizes {
    /// How many sockets and connections there are at most, those among them that still end: 1 to 16,384.
    pub entries: usize,
    /// How many octets a connection holds each way: 2,048 to 1,048,576, and 65,535 at most where its windows aren't scaled (RFC 7323 section 2).
    pub buffer: usize,
    /// How many datagrams are put together of fragments at a time: 0 to 16.
    pub reassemblies: usize,
    /// The longest payload that is put together, in octets, its UDP header among them: 1,480 to 65,515.
    pub reassembly_octets: usize,
    /// How many control replies wait at most (ARP, ICMP, resets): 1 to 64.
    pub replies: usize,
    /// How many neighbours on the link are known at most: 8 to 4,096.
    pub neighbours: usize,
}

impl Sizes {
    /// Those of a host whose config names no others.
    pub const USUAL: Sizes = Sizes {
        entries: 64,
        buffer: 1_048_576,
        reassemblies: 4,
        reassembly_octets: 65_515,
        replies: 16,
        neighbours: 64,
    };
}

/// How a host is set up.
#[derive(Clone, Copy, Debug)]
pub struct Config<'a> {
    mac: [u8; 6],
    addr: Ipv4Addr,
    routes: &'a [Route],
    scales: bool,
    minshall: bool,
    recovery: Recovery,
    first_segments: u8,
    least_timeout: u16,
    first_threshold: u32,
    guards: bool,
    sizes: Sizes,
}

impl<'a> Config<'a> {
    /// A host at `addr`, whose interface has this MAC, with these routes. It uses the window scale option (RFC 7323 section 2).
    pub fn new(mac: [u8; 6], addr: Ipv4Addr, routes: &'a [Route]) -> Config<'a> {
        Config {
            mac,
            addr,
            routes,
            scales: true,
            minshall: false,
            recovery: Recovery::Plain,
            first_segments: 0,
            least_timeout: 0,
            first_threshold: 0,
            guards: false,
            sizes: Sizes::USUAL,
        }
    }

    /// With the window scale option a connection holds as many octets each way as the sizes say, and else 65,535 at most.
    pub fn with_scale(self, scales: bool) -> Config<'a> {
        Config { scales, ..self }
    }

    /// Where this is on, a small segment waits for a small one only, and the FIN goes with the last octets (Minshall, RFC 9293 appendix A.3); else small
    /// segments wait for all that is outstanding, and the FIN goes alone.
    pub fn with_minshall(self, minshall: bool) -> Config<'a> {
        Config { minshall, ..self }
    }

    /// How its connections repair losses: a host that meets a real network wants `Recovery::Selective`, else it is `Recovery::Plain`.
    pub fn with_recovery(self, recovery: Recovery) -> Config<'a> {
        Config { recovery, ..self }
    }

    /// Where this is on, the host is on its guard: it drops what comes from the address of a network on its link, or of all its hosts, and ARP packets of such an
    /// address, of a group's MAC and of its own (RFC 1122 section 3.2.1.3); it takes no octets with an acknowledgement older than the largest window of the
    /// peer is wide, answers at most ten segments a second of a connection that it doesn't use (RFC 5961), and a SYN that comes again by the SYN-ACK again.
    /// Where a SYN or a socket finds no room, a half-open connection whose SYN-ACK nobody answered for a second gives way, or one in TIME-WAIT that was closed
    /// here; and such a one to a SYN between its ends that is past all that was heard on it. To a fragment the oldest datagram that is put together gives
    /// way, and one of a datagram that was whole within the last second begins none. A host that meets a real network wants it on.
    pub fn with_guards(self, guards: bool) -> Config<'a> {
        Config { guards, ..self }
    }

    /// How many octets the slow start threshold of a connection has at first (RFC 5681 section 3.1): 65,535 at least and 2^30 at most, and another number
    /// counts as the nearest of these. Else it has 65,535.
    pub fn with_threshold(self, octets: u32) -> Config<'a> {
        Config {
            first_threshold: octets,
            ..self
        }
    }

    /// How many segments the first congestion window of a connection has: 10 at most (RFC 6928), and a larger number counts as 10. With 0, as else, it has
    /// two to four, by their size (RFC 5681 section 3.1).
    pub fn with_first_segments(self, segments: u8) -> Config<'a> {
        Config {
            first_segments: segments,
            ..self
        }
    }

    /// How many milliseconds a retransmission timeout has at least (RFC 6298 section 2.4): 200 to 1,000, and another number counts as the nearest of
    /// these. Else it has 1,000.
    pub fn with_least_timeout(self, milliseconds: u16) -> Config<'a> {
        Config {
            // In C 0 stands for the usual.
            least_timeout: milliseconds.max(1),
            ..self
        }
    }

    /// How large the host is; else it has `Sizes::USUAL`. `Host::new` refuses a size that is out of its range. A small machine may want
    /// `Sizes { entries: 8, buffer: 4096, reassemblies: 0, replies: 4, neighbours: 8, ..Sizes::USUAL }`.
    pub fn with_sizes(self, sizes: Sizes) -> Config<'a> {
        Config { sizes, ..self }
    }
}

/// A size as C has it, where 0 would stand for the usual one.
fn sized<N: TryFrom<usize>>(size: usize) -> Result<N, Error> {
    if size == 0 {
        return Err(Error::EINVAL);
    }
    N::try_from(size).map_err(|_| Error::EINVAL)
}

/// A host on a link. It gives back what it holds when it is dropped. It may move to another thread; hosts share nothing.
pub struct Host(pub(crate) c::Host);

// A handle is used by one thread at a time, and it owns what it leads to.
unsafe impl Send for Host {}

impl Host {
    /// A host with no sockets.
    ///
    /// EINVAL: the address isn't unicast, the MAC is one of a group, a prefix is longer than 32 bits or has bits set past its length, two routes have the
    /// same prefix, or there are over 32; or a size is out of its range. ENOMEM.
    pub fn new(config: &Config) -> Result<Host, Error> {
        let mut routes = [c::Route::default(); ROUTES];
        if config.routes.len() > ROUTES {
            return Err(Error::EINVAL);
        }
        for (to, from) in routes.iter_mut().zip(config.routes) {
            to.prefix = from.prefix.into();
            to.gateway = from.gateway.map_or(0, u32::from);
            to.length = from.length;
        }
        let sizes = config.sizes;
        let given = c::Config {
            size: size_of::<c::Config>(),
            routes: routes.as_ptr(),
            count: config.routes.len(),
            addr: config.addr.into(),
            mac: config.mac,
            no_window_scale: u8::from(!config.scales),
            minshall: u8::from(config.minshall),
            recovery: config.recovery as u8,
            first_segments: config.first_segments,
            least_timeout: config.least_timeout,
            first_threshold: config.first_threshold,
            guards: u8::from(config.guards),
            replies: sized(sizes.replies)?,
            no_reassembly: u8::from(sizes.reassemblies == 0),
            reassemblies: sized(sizes.reassemblies.max(1))?,
            entries: sized(sizes.entries)?,
            buffer: sized(sizes.buffer)?,
            neighbours: sized(sizes.neighbours)?,
            reassembly_octets: sized(sizes.reassembly_octets)?,
            zero: [0; 4],
        };
        let mut host = Host(c::Host { at: null_mut() });
        Error::check(unsafe { c::host_new_from(&mut host.0, &given, given.size, given.routes, given.count) })?;
        Ok(host)
    }

    /// A new socket. EMFILE, ENOMEM.
    pub fn socket(&mut self, kind: Kind) -> Result<SocketId, Error> {
        Error::check(unsafe { c::host_socket(&mut self.0, kind as u32) }).map(SocketId)
    }

    /// Binds a socket to a local endpoint, at our address or at 0.0.0.0, which stands for it; port 0 takes a dynamic port.
    pub fn bind(&mut self, id: SocketId, local: SocketAddrV4) -> Result<(), Error> {
        done(unsafe { c::host_bind(&mut self.0, id.0, addr_of(local), local.port()) })
    }

    /// Lets a bound socket take connections, of which `backlog` may wait to be accepted, 1 to 8.
    pub fn listen(&mut self, id: SocketId, backlog: usize) -> Result<(), Error> {
        done(unsafe { c::host_listen(&mut self.0, id.0, backlog) })
    }

    /// The connection that was open first of those that wait at a listener, and its peer. EAGAIN where none waits.
    pub fn accept(&mut self, id: SocketId) -> Result<(SocketId, SocketAddrV4), Error> {
        let mut peer = c::Endpoint::default();
        let accepted = Error::check(unsafe { c::host_accept(&mut self.0, id.0, &mut peer) })?;
        Ok((SocketId(accepted), end_of(peer)))
    }

    /// Begins to open a connection, with the initial number `isn`. It is open once its state is neither SynSent nor SynReceived.
    pub fn connect(&mut self, now: u64, isn: u32, id: SocketId, peer: SocketAddrV4) -> Result<(), Error> {
        done(unsafe { c::host_connect(&mut self.0, now, isn, id.0, addr_of(peer), peer.port()) })
    }

    /// Gives octets to a connection: how many it took, the first that find room. EAGAIN where there is none.
    pub fn send(&mut self, id: SocketId, octets: &[u8]) -> Result<usize, Error> {
        count(unsafe { c::host_send(&mut self.0, id.0, octets.as_ptr(), octets.len()) })
    }

    /// The next octets of a connection, which stand at the front of `buffer` then: how many; 0 is the end of the stream. EAGAIN where there are none yet.
    pub fn recv(&mut self, id: SocketId, buffer: &mut [u8]) -> Result<usize, Error> {
        count(unsafe { c::host_recv(&mut self.0, id.0, buffer.as_mut_ptr(), buffer.len()) })
    }

    /// Closes our side of a connection, behind all octets that were given.
    pub fn shutdown_write(&mut self, id: SocketId) -> Result<(), Error> {
        done(unsafe { c::host_shutdown_write(&mut self.0, id.0) })
    }

    /// Lets small segments of a connection go out at once from now on, and not wait until what went out before is acknowledged; or wait, as at first.
    pub fn set_nodelay(&mut self, id: SocketId, on: bool) -> Result<(), Error> {
        done(unsafe { c::host_set_nodelay(&mut self.0, id.0, u32::from(on)) })
    }

    /// Asks the peer of a connection whether it is there, from now on, after so many milliseconds each in which it said nothing, while nothing of ours waits
    /// to go out or to be acknowledged; or no more, as at first. One that was asked twelve times in vain is given up: ETIMEDOUT.
    ///
    /// EINVAL: fewer than 10,000 or more than 86,400,000, a day.
    pub fn set_keepalive(&mut self, id: SocketId, every: Option<u64>) -> Result<(), Error> {
        // 0 would say that it isn't asked. 1 is refused as 0 is to be, in its turn.
        let milliseconds = every.map_or(0, |every| every.max(1));
        done(unsafe { c::host_set_keepalive(&mut self.0, id.0, milliseconds) })
    }

    /// Takes a socket away. A connection with octets that nobody read is reset, and one whose peer sends more; else what was given still goes out.
    pub fn close(&mut self, id: SocketId) -> Result<(), Error> {
        done(unsafe { c::host_close(&mut self.0, id.0) })
    }

    /// Takes a socket away and ends its connection at once: past SYN-SENT its peer is sent a reset, and what waits to go out or to be read is lost.
    pub fn abort(&mut self, id: SocketId) -> Result<(), Error> {
        done(unsafe { c::host_abort(&mut self.0, id.0) })
    }

    /// Gives a datagram to a UDP socket: its length.
    pub fn sendto(&mut self, id: SocketId, peer: SocketAddrV4, octets: &[u8]) -> Result<usize, Error> {
        count(unsafe { c::host_sendto(&mut self.0, id.0, addr_of(peer), peer.port(), octets.as_ptr(), octets.len()) })
    }

    /// The first datagram that came, cut to the buffer: how many of its octets stand at the front, and where it is from. EAGAIN where none came.
    pub fn recvfrom(&mut self, id: SocketId, buffer: &mut [u8]) -> Result<(usize, SocketAddrV4), Error> {
        let mut from = c::Endpoint::default();
        let len = count(unsafe { c::host_recvfrom(&mut self.0, id.0, buffer.as_mut_ptr(), buffer.len(), &mut from) })?;
        Ok((len, end_of(from)))
    }

    /// The state of a socket.
    pub fn state(&mut self, id: SocketId) -> Result<State, Error> {
        let number = Error::check(unsafe { c::host_state(&mut self.0, id.0) })?;
        State::of(number as i64).ok_or(Error::EINVAL)
    }

    /// Where a socket is: our end of its connection, else where it is bound, else 0.0.0.0:0.
    pub fn sockname(&mut self, id: SocketId) -> Result<SocketAddrV4, Error> {
        let mut end = c::Endpoint::default();
        done(unsafe { c::host_sockname(&mut self.0, id.0, &mut end) }).map(|()| end_of(end))
    }

    /// The other end of a socket's connection, also of one that is over. ENOTCONN where it has had none.
    pub fn peername(&mut self, id: SocketId) -> Result<SocketAddrV4, Error> {
        let mut end = c::Endpoint::default();
        done(unsafe { c::host_peername(&mut self.0, id.0, &mut end) }).map(|()| end_of(end))
    }

    /// Both ends of the connection that `connect` would open now, to make an initial number from; None where it would be refused.
    pub fn would_connect(&mut self, id: SocketId, peer: SocketAddrV4) -> Option<Pair> {
        let mut pair = [c::Endpoint::default(); 2];
        let answer = unsafe { c::host_would_connect(&mut self.0, id.0, addr_of(peer), peer.port(), &mut pair) };
        (answer == 1).then(|| pair.map(end_of))
    }

    /// Both ends of the connection that delivering this frame would open; None where it would open none.
    pub fn would_open(&mut self, frame: &[u8]) -> Option<Pair> {
        let mut pair = [c::Endpoint::default(); 2];
        let answer = unsafe { c::host_would_open(&mut self.0, frame.as_ptr(), frame.len(), &mut pair) };
        (answer == 1).then(|| pair.map(end_of))
    }

    /// What a socket is ready for, as things stand. EBADF.
    pub fn ready(&mut self, id: SocketId) -> Result<Ready, Error> {
        Error::check(unsafe { c::host_ready(&mut self.0, id.0) }).map(|bits| Ready(bits as u32))
    }

    /// The first socket behind `after` in order of id that is ready for one of `mask`, and all that it is ready for. `after` need not name a socket, and
    /// id 0 stands before all.
    pub fn next_ready(&mut self, after: SocketId, mask: Ready) -> Option<(SocketId, Ready)> {
        let mut bits = 0;
        let id = Error::check(unsafe { c::host_next_ready(&mut self.0, after.0, mask.0, &mut bits) }).ok()?;
        (id > 0).then_some((SocketId(id), Ready(bits)))
    }

    /// How many octets could be read at once: those of the first datagram, of a UDP socket.
    pub fn recv_len(&mut self, id: SocketId) -> Result<usize, Error> {
        count(unsafe { c::host_recv_len(&mut self.0, id.0) })
    }

    /// How many octets could be given at once: to a UDP socket in one datagram.
    pub fn send_room(&mut self, id: SocketId) -> Result<usize, Error> {
        count(unsafe { c::host_send_room(&mut self.0, id.0) })
    }

    /// The socket that a frame is for, before it is delivered; None where it is for none, or is a fragment of a datagram.
    pub fn concerns(&mut self, frame: &[u8]) -> Option<SocketId> {
        let id = Error::check(unsafe { c::host_concerns(&mut self.0, frame.as_ptr(), frame.len()) }).ok()?;
        (id > 0).then_some(SocketId(id))
    }

    /// Lets time pass: each timer acts whose moment has come.
    pub fn tick(&mut self, now: u64) {
        unsafe { c::host_tick(&mut self.0, now) }
    }

    /// The moment at which `tick` is wanted at the latest.
    pub fn next_deadline(&mut self) -> Option<u64> {
        let mut moment = 0;
        let is_some = unsafe { c::host_next_deadline(&mut self.0, &mut moment) } == 1;
        is_some.then_some(moment)
    }

    /// Hands a frame that arrived to the host. `isn` is used where it opens a connection: hand in a fresh one each time.
    pub fn deliver(&mut self, now: u64, isn: u32, frame: &[u8]) -> Result<(), DropCause> {
        DropCause::check(unsafe { c::host_deliver(&mut self.0, now, isn, frame.as_ptr(), frame.len()) })
    }

    /// The next frame that is due, at the front of `out`.
    pub fn next_frame<'a>(&mut self, now: u64, out: &'a mut [u8; FRAME_SIZE]) -> Option<&'a [u8]> {
        let len = count(unsafe { c::host_next_frame(&mut self.0, now, out) }).ok()?;
        (len > 0).then(|| &out[..len])
    }
}

impl Drop for Host {
    fn drop(&mut self) {
        unsafe { c::host_free(&mut self.0) }
    }
}

fn done(answer: i64) -> Result<(), Error> {
    Error::check(answer).map(|_| ())
}

/// A count of octets: a usize has 64 bits wherever there is a library.
fn count(answer: i64) -> Result<usize, Error> {
    Error::check(answer).map(|number| number as usize)
}

fn addr_of(end: SocketAddrV4) -> u32 {
    (*end.ip()).into()
}

fn end_of(end: c::Endpoint) -> SocketAddrV4 {
    SocketAddrV4::new(end.addr.into(), end.port)
}
