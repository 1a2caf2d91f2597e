//! What a program sees of the crate, call by call. `examples/two_hosts.rs` has a whole conversation.

use hostc::{Config, Device, DropCause, Error, Heard, Host, Kind, Ready, Recovery, Route, Sizes, SocketId, State, FRAME_SIZE};
use std::net::{Ipv4Addr, SocketAddrV4};

const MAC: [u8; 6] = [2, 0, 0, 0, 0, 1];
const ADDR: Ipv4Addr = Ipv4Addr::new(10, 0, 0, 1);
const LINK: Route = Route {
    prefix: Ipv4Addr::new(10, 0, 0, 0),
    length: 24,
    gateway: None,
};
const PEER: SocketAddrV4 = SocketAddrV4::new(Ipv4Addr::new(10, 0, 0, 2), 80);

fn host() -> Host {
    Host::new(&Config::new(MAC, ADDR, &[LINK])).expect("there is memory")
}

#[test]
fn the_library_has_the_version_of_the_crate() {
    let parts: Vec<u32> = env!("CARGO_PKG_VERSION").split('.').map(|part| part.parse().expect("a number")).collect();
    assert_eq!(hostc::version(), parts[0] << 16 | parts[1] << 8 | parts[2]);
}

#[test]
fn what_is_no_set_up_is_refused() {
    let made = |mac, addr, routes: &[Route]| Host::new(&Config::new(mac, addr, routes)).err();
    assert_eq!(made(MAC, ADDR, &[LINK]), None);
    assert_eq!(made(MAC, ADDR, &[]), None);
    assert_eq!(made([1, 0, 0, 0, 0, 1], ADDR, &[LINK]), Some(Error::EINVAL));
    assert_eq!(made(MAC, Ipv4Addr::BROADCAST, &[LINK]), Some(Error::EINVAL));
    assert_eq!(made(MAC, ADDR, &[LINK, LINK]), Some(Error::EINVAL));
    assert_eq!(made(MAC, ADDR, &[Route { length: 33, ..LINK }]), Some(Error::EINVAL));
    let routes = |count: u8| -> Vec<Route> {
        (0..count)
            .map(|i| Route {
                prefix: Ipv4Addr::new(10, 0, i, 0),
                gateway: Some(Ipv4Addr::new(10, 0, 0, 9)),
                ..LINK
            })
            .collect()
    };
    assert_eq!(made(MAC, ADDR, &routes(32)), None);
    assert_eq!(made(MAC, ADDR, &routes(33)), Some(Error::EINVAL));
}

#[test]
fn each_number_of_a_set_up_is_taken() {
    let usual = Config::new(MAC, ADDR, &[LINK]);
    for recovery in [Recovery::Plain, Recovery::NewReno, Recovery::Selective] {
        for number in [0, 1, 10, 200, 65_535, 1 << 30, u32::MAX] {
            let config = usual.with_recovery(recovery).with_threshold(number).with_first_segments(number as u8).with_least_timeout(number as u16);
            assert_eq!(Host::new(&config).err(), None);
        }
    }
}

#[test]
fn sizes_lie_in_their_ranges() {
    let made = |sizes| Host::new(&Config::new(MAC, ADDR, &[LINK]).with_sizes(sizes)).err();
    let usual = Sizes::USUAL;
    let from = |least: Sizes, most: Sizes| {
        assert_eq!(made(least), None);
        assert_eq!(made(most), None);
    };
    from(Sizes { entries: 1, ..usual }, Sizes { entries: 16_384, ..usual });
    from(Sizes { buffer: 2_048, ..usual }, Sizes { buffer: 1_048_576, ..usual });
    from(Sizes { reassemblies: 0, ..usual }, Sizes { reassemblies: 16, ..usual });
    from(Sizes { reassembly_octets: 1_480, ..usual }, Sizes { reassembly_octets: 65_515, ..usual });
    from(Sizes { replies: 1, ..usual }, Sizes { replies: 64, ..usual });
    from(Sizes { neighbours: 8, ..usual }, Sizes { neighbours: 4_096, ..usual });
    for entries in [0, 16_385, 1 << 32] {
        assert_eq!(made(Sizes { entries, ..usual }), Some(Error::EINVAL));
    }
    for buffer in [0, 2_047, 1_048_577, 1 << 32] {
        assert_eq!(made(Sizes { buffer, ..usual }), Some(Error::EINVAL));
    }
    for reassemblies in [17, 256] {
        assert_eq!(made(Sizes { reassemblies, ..usual }), Some(Error::EINVAL));
    }
    for reassembly_octets in [0, 1_479, 65_516, 1 << 16] {
        assert_eq!(made(Sizes { reassembly_octets, ..usual }), Some(Error::EINVAL));
    }
    for replies in [0, 65, 256] {
        assert_eq!(made(Sizes { replies, ..usual }), Some(Error::EINVAL));
    }
    for neighbours in [0, 7, 4_097, 1 << 16] {
        assert_eq!(made(Sizes { neighbours, ..usual }), Some(Error::EINVAL));
    }
}

#[test]
fn a_host_has_as_many_entries_as_its_sizes_say() {
    for entries in [1, 3, 200] {
        let sizes = Sizes { entries, buffer: 2_048, ..Sizes::USUAL };
        let mut host = Host::new(&Config::new(MAC, ADDR, &[LINK]).with_sizes(sizes)).unwrap();
        for _ in 0..entries {
            host.socket(Kind::Tcp).unwrap();
        }
        assert_eq!(host.socket(Kind::Tcp), Err(Error::EMFILE));
    }
}

#[test]
fn refusals_have_their_names() {
    let mut host = host();
    let none = SocketId(7);
    assert_eq!(host.state(none), Err(Error::EBADF));
    assert_eq!(host.close(none).unwrap_err().to_string(), "EBADF");
    let stream = host.socket(Kind::Tcp).unwrap();
    assert_eq!(stream, SocketId(1));
    assert_eq!(host.state(stream), Ok(State::Closed));
    assert_eq!(host.send(stream, b""), Err(Error::ENOTCONN));
    assert_eq!(host.recv(stream, &mut []), Err(Error::EINVAL));
    assert_eq!(host.peername(stream), Err(Error::ENOTCONN));
    assert_eq!(host.sockname(stream), Ok(SocketAddrV4::new(Ipv4Addr::UNSPECIFIED, 0)));
    assert_eq!(host.listen(stream, 1), Err(Error::EDESTADDRREQ));
    assert_eq!(host.set_nodelay(stream, true), Err(Error::ENOTCONN));
    assert_eq!(host.set_keepalive(stream, Some(10_000)), Err(Error::ENOTCONN));
    assert_eq!(host.set_keepalive(stream, None), Err(Error::ENOTCONN));
    for every in [0, 9_999, 86_400_001, u64::MAX] {
        assert_eq!(host.set_keepalive(stream, Some(every)), Err(Error::EINVAL));
        assert_eq!(host.set_keepalive(none, Some(every)), Err(Error::EBADF));
    }
    let datagrams = host.socket(Kind::Udp).unwrap();
    assert_eq!(host.state(datagrams), Ok(State::Datagram));
    assert_eq!(host.accept(datagrams), Err(Error::EOPNOTSUPP));
    assert_eq!(host.send(datagrams, b"x"), Err(Error::EDESTADDRREQ));
    assert_eq!(host.set_nodelay(datagrams, true), Err(Error::EOPNOTSUPP));
    assert_eq!(host.set_keepalive(datagrams, Some(86_400_000)), Err(Error::EOPNOTSUPP));
    assert_eq!(host.sendto(datagrams, SocketAddrV4::new(Ipv4Addr::new(192, 0, 2, 1), 9), b"x"), Err(Error::ENETUNREACH));
    assert_eq!(host.recvfrom(datagrams, &mut [0]), Err(Error::EAGAIN));
    for _ in 2..64 {
        host.socket(Kind::Udp).unwrap();
    }
    assert_eq!(host.socket(Kind::Tcp), Err(Error::EMFILE));
}

#[test]
fn drops_have_their_causes() {
    let mut host = host();
    assert_eq!(host.deliver(0, 1, &[0; 13]), Err(DropCause::Short));
    assert_eq!(host.deliver(0, 1, &[0; 60]), Err(DropCause::OtherMac));
    let mut frame = [0; 60];
    frame[..6].copy_from_slice(&MAC);
    assert_eq!(host.deliver(0, 1, &frame).unwrap_err().to_string(), "OtherType");
    assert_eq!(host.would_open(&frame), None);
    let counted = host.counters();
    assert_eq!((counted.frames_in, counted.octets_in, counted.frames_out, counted.octets_out), (3, 13 + 60 + 60, 0, 0));
    assert_eq!((counted.short_frame, counted.other_mac, counted.other_type), (1, 1, 1));
    assert_eq!([counted.ip_header, counted.ip_sum, counted.other_address, counted.upper_header, counted.upper_sum, counted.fragment], [0; 6]);
    assert_eq!([counted.backlog, counted.table, counted.memory, counted.replies, counted.queue, counted.reassembly, counted.route], [0; 7]);
}

#[test]
fn what_waits_in_vain_is_counted() {
    let mut host = host();
    let id = host.socket(Kind::Udp).unwrap();
    assert_eq!(host.sendto(id, PEER, b"x"), Ok(1));
    host.tick(2_999);
    assert_eq!(host.counters().datagrams_given_up, 0);
    host.tick(3_000);
    let counted = host.counters();
    assert_eq!((counted.replies_given_up, counted.resets_given_up, counted.datagrams_given_up), (0, 0, 1));
}

#[test]
fn an_opening_is_foretold() {
    let mut host = host();
    let id = host.socket(Kind::Tcp).unwrap();
    let ours = SocketAddrV4::new(ADDR, 49152);
    assert_eq!(host.would_connect(id, PEER), Some([ours, PEER]));
    host.connect(5, 9, id, PEER).unwrap();
    assert_eq!(host.would_connect(id, PEER), None);
    assert_eq!(host.sockname(id), Ok(ours));
    assert_eq!(host.peername(id), Ok(PEER));
    assert_eq!(host.connect(5, 9, id, PEER), Err(Error::EALREADY));
}

/// All that is due at the one goes to the other.
fn carry(now: u64, from: &mut Host, to: &mut Host) {
    let mut frame = [0; FRAME_SIZE];
    while let Some(sent) = from.next_frame(now, &mut frame) {
        to.deliver(now, 5, sent).unwrap();
    }
}

#[test]
fn a_silent_peer_is_asked_and_given_up() {
    let mut host = host();
    let mut peer = Host::new(&Config::new([2, 0, 0, 0, 0, 2], *PEER.ip(), &[LINK])).unwrap();
    let listener = peer.socket(Kind::Tcp).unwrap();
    peer.bind(listener, PEER).unwrap();
    peer.listen(listener, 1).unwrap();
    let id = host.socket(Kind::Tcp).unwrap();
    host.connect(0, 9, id, PEER).unwrap();
    for _ in 0..3 {
        carry(0, &mut host, &mut peer);
        carry(0, &mut peer, &mut host);
    }
    assert_eq!((host.state(id), host.next_deadline()), (Ok(State::Established), None));
    // It is there, and its answer begins the time anew.
    host.set_keepalive(id, Some(10_000)).unwrap();
    assert_eq!(host.next_deadline(), Some(10_000));
    host.tick(10_000);
    carry(10_000, &mut host, &mut peer);
    carry(10_000, &mut peer, &mut host);
    assert_eq!(host.next_deadline(), Some(20_000));
    // It is gone: 12 probes, of which the first is waited for as long as the timeout, a second.
    let mut asked = 0;
    let mut now = 0;
    while let Some(moment) = host.next_deadline() {
        now = moment;
        host.tick(now);
        while host.next_frame(now, &mut [0; FRAME_SIZE]).is_some() {
            asked += 1;
        }
    }
    assert_eq!((asked, now, host.state(id)), (12, 20_000 + 63_000 + 6 * 60_000, Ok(State::Closed)));
    assert_eq!(host.recv(id, &mut [0]), Err(Error::ETIMEDOUT));
    assert_eq!(host.set_keepalive(id, None), Ok(()));
}

/// A link on which one frame arrived, and that counts those that go out.
struct Link {
    arrived: Option<Vec<u8>>,
    sent: Vec<usize>,
}

impl Device for Link {
    type Error = &'static str;

    fn recv(&mut self, frame: &mut [u8; FRAME_SIZE]) -> Result<Option<usize>, &'static str> {
        let Some(arrived) = self.arrived.take() else { return Ok(None) };
        frame[..arrived.len()].copy_from_slice(&arrived);
        Ok(Some(arrived.len()))
    }

    fn send(&mut self, frame: &[u8]) -> Result<(), &'static str> {
        if self.sent.len() == 1 {
            return Err("the link is gone");
        }
        self.sent.push(frame.len());
        Ok(())
    }
}

#[test]
fn a_turn_goes_over_a_device() {
    let mut host = host();
    let mut link = Link {
        arrived: Some(vec![0; 60]),
        sent: Vec::new(),
    };
    let id = host.socket(Kind::Tcp).unwrap();
    host.connect(0, 9, id, PEER).unwrap();
    assert_eq!(host.hear(0, &mut link, || 1), Ok(Heard { taken: 0, dropped: 1 }));
    assert_eq!(host.speak(0, &mut link), Ok(1));
    assert_eq!(link.sent, [60]);
    assert_eq!(host.next_deadline(), Some(1000));
    host.tick(1000);
    assert_eq!(host.speak(1000, &mut link), Err("the link is gone"));
}

#[test]
fn a_host_moves_to_another_thread() {
    let mut host = host();
    let id = host.socket(Kind::Tcp).unwrap();
    let state = std::thread::spawn(move || host.state(id)).join().unwrap();
    assert_eq!(state, Ok(State::Closed));
}

#[test]
fn readiness_is_a_set() {
    let ready = Ready::READ | Ready::ENDED;
    assert!(ready.contains(Ready::READ) && !ready.contains(Ready::READ | Ready::WRITE));
    assert!(ready.meets(Ready::READ | Ready::WRITE) && !ready.meets(Ready::ACCEPT));
    assert!(Ready::default().is_empty() && !ready.is_empty());
    assert_eq!(format!("{ready:?} {:?}", Ready::default()), "READ | ENDED none");
}

#[test]
fn sockets_tell_what_they_are_ready_for() {
    let mut host = host();
    assert_eq!(host.next_ready(SocketId(0), Ready(63)), None);
    let stream = host.socket(Kind::Tcp).unwrap();
    let datagrams = host.socket(Kind::Udp).unwrap();
    assert_eq!(host.ready(stream), Ok(Ready::default()));
    assert_eq!(host.ready(datagrams), Ok(Ready::WRITE));
    assert_eq!(host.ready(SocketId(9)), Err(Error::EBADF));
    assert_eq!(host.next_ready(SocketId(0), Ready::WRITE), Some((datagrams, Ready::WRITE)));
    assert_eq!(host.next_ready(datagrams, Ready::WRITE), None);
    host.connect(0, 9, stream, PEER).unwrap();
    assert_eq!(host.ready(stream), Ok(Ready::OPENING));
    assert_eq!((host.send_room(stream), host.recv_len(stream)), (Ok(0), Ok(0)));
    assert_eq!(host.recv_len(datagrams), Ok(0));
    assert_eq!(host.send_room(datagrams), Ok(65_507));
    assert_eq!(host.concerns(&[0; 60]), None);
}

#[test]
fn a_connection_tells_of_itself() {
    let mut host = host();
    let stream = host.socket(Kind::Tcp).unwrap();
    assert_eq!(host.info(stream), Err(Error::ENOTCONN));
    assert_eq!(host.info(SocketId(9)), Err(Error::EBADF));
    host.connect(0, 9, stream, PEER).unwrap();
    let info = host.info(stream).unwrap();
    assert_eq!((info.state, info.held, info.readable, info.error), (State::SynSent, 0, 0, None));
    assert_eq!((info.rto, info.srtt_8, info.ends), (1000, None, None));
}
