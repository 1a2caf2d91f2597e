//! Two hosts in one Rust program, joined in memory: a handshake, octets both ways, a transfer of which a frame is lost, a datagram there and back,
//! and a close. It checks what it reads, and ends with status 0 where all of it was as it should be. `embed/build` makes it, by rustc, the crate of
//! `embed/rust` and `libhostc.a`.

use hostc::{Config, Device, Error, Host, Kind, Recovery, Route, SocketId, State, FRAME_SIZE};
use std::collections::VecDeque;
use std::convert::Infallible;
use std::net::{Ipv4Addr, SocketAddrV4};

const A: Ipv4Addr = Ipv4Addr::new(10, 0, 0, 1);
const B: Ipv4Addr = Ipv4Addr::new(10, 0, 0, 2);

/// One end of a link in memory: the frames that arrived at it, and those that go out.
#[derive(Default)]
struct End {
    arrived: VecDeque<Vec<u8>>,
    sent: VecDeque<Vec<u8>>,
}

impl Device for End {
    type Error = Infallible;

    fn recv(&mut self, frame: &mut [u8; FRAME_SIZE]) -> Result<Option<usize>, Infallible> {
        Ok(self.arrived.pop_front().map(|arrived| {
            frame[..arrived.len()].copy_from_slice(&arrived);
            arrived.len()
        }))
    }

    fn send(&mut self, frame: &[u8]) -> Result<(), Infallible> {
        self.sent.push_back(frame.to_vec());
        Ok(())
    }
}

/// Both hosts on their link, with a clock, and a counter for initial numbers (good for tests alone).
struct Network {
    a: Host,
    b: Host,
    ends: [End; 2],
    now: u64,
    isn: u32,
}

impl Network {
    /// A turn of each host: what was sent arrives. Answers how many frames those were, none of which is dropped.
    fn turn(&mut self) -> usize {
        let [one, other] = &mut self.ends;
        let mut moved = 0;
        for (host, end) in [(&mut self.a, &mut *one), (&mut self.b, &mut *other)] {
            let heard = host.hear(self.now, end, || {
                self.isn += 1;
                self.isn
            });
            assert_eq!(heard.map(|heard| heard.dropped), Ok(0), "a host takes the frames of its neighbour");
            let Ok(count) = host.speak(self.now, end);
            moved += count;
        }
        one.arrived.append(&mut other.sent);
        other.arrived.append(&mut one.sent);
        moved
    }

    /// Lets the hosts talk until both are silent, and then a millisecond pass.
    fn turns(&mut self) {
        while self.turn() > 0 {}
        self.now += 1;
    }

    /// Lets time pass until the earlier deadline of the hosts. As long as octets wait to be acknowledged there is one, or a frame goes out.
    fn wait_for_deadline(&mut self) {
        let moments = [self.a.next_deadline(), self.b.next_deadline()];
        self.now = moments.into_iter().flatten().min().expect("octets that wait have a deadline");
    }
}

/// 20,000 octets from a to b, of whose frames the first is lost. Time goes by the deadlines alone.
fn transfer_with_loss(network: &mut Network, caller: SocketId, accepted: SocketId) -> Result<(), Error> {
    let octets: Vec<u8> = (0..20_000).map(|i| (i % 251) as u8).collect();
    let (mut read, mut buffer, before) = (Vec::new(), [0; 4096], network.now);
    assert_eq!(network.a.send(caller, &octets), Ok(20_000));
    let lost = network.a.next_frame(network.now, &mut [0; FRAME_SIZE]).map(<[u8]>::len);
    assert_eq!(lost, Some(FRAME_SIZE));
    while read.len() < octets.len() {
        match network.b.recv(accepted, &mut buffer) {
            Ok(len) => read.extend_from_slice(&buffer[..len]),
            Err(Error::EAGAIN) if network.turn() > 0 => (),
            Err(Error::EAGAIN) => network.wait_for_deadline(),
            Err(error) => return Err(error),
        }
    }
    assert!(read == octets && network.now < before + 1000, "duplicate ACKs tell of the lost frame");
    network.turns();
    Ok(())
}

/// A connection from a to b: opened, used both ways, and closed by both ends in turn.
fn connection(network: &mut Network) -> Result<(), Error> {
    let mut buffer = [0; 100];
    let listener = network.b.socket(Kind::Tcp)?;
    network.b.bind(listener, SocketAddrV4::new(Ipv4Addr::UNSPECIFIED, 80))?;
    network.b.listen(listener, 1)?;
    let caller = network.a.socket(Kind::Tcp)?;
    network.a.connect(network.now, 1, caller, SocketAddrV4::new(B, 80))?;
    assert_eq!(network.a.state(caller), Ok(State::SynSent));
    network.turns();
    assert_eq!(network.a.state(caller), Ok(State::Established));
    let (accepted, peer) = network.b.accept(listener)?;
    assert_eq!(peer, SocketAddrV4::new(A, 49152));

    assert_eq!(network.b.recv(accepted, &mut buffer), Err(Error::EAGAIN));
    assert_eq!(network.a.send(caller, b"hello"), Ok(5));
    network.turns();
    assert_eq!(network.b.recv(accepted, &mut buffer), Ok(5));
    assert_eq!(&buffer[..5], b"hello");
    assert_eq!(network.b.send(accepted, b"welcome"), Ok(7));
    network.turns();
    assert_eq!(network.a.recv(caller, &mut buffer), Ok(7));
    assert_eq!(&buffer[..7], b"welcome");
    transfer_with_loss(network, caller, accepted)?;

    network.a.shutdown_write(caller)?;
    network.turns();
    assert_eq!(network.b.recv(accepted, &mut buffer), Ok(0));
    network.b.close(accepted)?;
    network.turns();
    assert_eq!(network.a.recv(caller, &mut buffer), Ok(0));
    assert_eq!(network.a.state(caller), Ok(State::TimeWait));
    network.wait_for_deadline();
    network.turns();
    assert_eq!(network.a.state(caller), Ok(State::Closed));
    network.a.close(caller)?;
    network.b.close(listener)
}

/// A datagram of 3,000 octets from a to b, which goes out in fragments, and one back to where it came from.
fn datagrams(network: &mut Network) -> Result<(), Error> {
    let large: Vec<u8> = (0..3000).map(|i| (i % 251) as u8).collect();
    let mut buffer = [0; 4000];
    let server = network.b.socket(Kind::Udp)?;
    let at = SocketAddrV4::new(B, 5001);
    network.b.bind(server, at)?;
    let client = network.a.socket(Kind::Udp)?;
    assert_eq!(network.a.sendto(client, at, &large), Ok(3000));
    network.turns();
    let (len, from) = network.b.recvfrom(server, &mut buffer)?;
    assert_eq!(&buffer[..len], &large[..]);
    assert_eq!(network.b.sendto(server, from, b"thanks"), Ok(6));
    network.turns();
    assert_eq!(network.a.recvfrom(client, &mut buffer)?, (6, at));
    assert_eq!(&buffer[..6], b"thanks");
    Ok(())
}

fn main() -> Result<(), Error> {
    let link = [Route {
        prefix: Ipv4Addr::new(10, 0, 0, 0),
        length: 24,
        gateway: None,
    }];
    // What a host wants that meets a real network.
    let real = |config: Config<'_>| {
        let config = config.with_recovery(Recovery::Selective).with_first_segments(10).with_least_timeout(200).with_threshold(1 << 30);
        Host::new(&config)
    };
    let mut network = Network {
        a: real(Config::new([2, 0, 0, 0, 0, 1], A, &link))?,
        b: real(Config::new([2, 0, 0, 0, 0, 2], B, &link))?,
        ends: Default::default(),
        now: 1000,
        isn: 100,
    };
    connection(&mut network)?;
    datagrams(&mut network)?;
    println!("two hosts: a connection, octets both ways, a lost frame, datagrams and a close");
    Ok(())
}
