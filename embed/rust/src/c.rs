//! The library's own functions, as `embed/host.h` has them: what each does and refuses stands there.

/// A handle. It is never copied.
#[repr(C)]
pub struct Host {
    pub at: *mut u8,
}

#[repr(C)]
#[derive(Clone, Copy, Default)]
pub struct Endpoint {
    pub addr: u32,
    pub port: u16,
}

#[repr(C)]
#[derive(Clone, Copy, Default)]
pub struct Route {
    pub prefix: u32,
    pub gateway: u32,
    pub length: u8,
}

/// Its octets are passed, so it has no padding.
#[repr(C)]
pub struct Config {
    pub size: usize,
    pub routes: *const Route,
    pub count: usize,
    pub addr: u32,
    pub mac: [u8; 6],
    pub no_window_scale: u8,
    pub minshall: u8,
    pub recovery: u8,
    pub first_segments: u8,
    pub least_timeout: u16,
    pub first_threshold: u32,
    pub guards: u8,
    pub replies: u8,
    pub no_reassembly: u8,
    pub reassemblies: u8,
    pub entries: u32,
    pub buffer: u32,
    pub neighbours: u16,
    pub reassembly_octets: u16,
    pub zero: [u8; 4],
}

extern "C" {
    pub fn host_version() -> u32;
    pub fn host_new_from(host: *mut Host, config: *const Config, size: usize, routes: *const Route, count: usize) -> i64;
    pub fn host_free(host: *mut Host);
    pub fn host_socket(host: *mut Host, kind: u32) -> i64;
    pub fn host_bind(host: *mut Host, id: u64, addr: u32, port: u16) -> i64;
    pub fn host_listen(host: *mut Host, id: u64, backlog: usize) -> i64;
    pub fn host_accept(host: *mut Host, id: u64, peer: *mut Endpoint) -> i64;
    pub fn host_connect(host: *mut Host, now: u64, isn: u32, id: u64, addr: u32, port: u16) -> i64;
    pub fn host_send(host: *mut Host, id: u64, octets: *const u8, len: usize) -> i64;
    pub fn host_recv(host: *mut Host, id: u64, buffer: *mut u8, len: usize) -> i64;
    pub fn host_shutdown_write(host: *mut Host, id: u64) -> i64;
    pub fn host_set_nodelay(host: *mut Host, id: u64, on: u32) -> i64;
    pub fn host_set_keepalive(host: *mut Host, id: u64, milliseconds: u64) -> i64;
    pub fn host_close(host: *mut Host, id: u64) -> i64;
    pub fn host_abort(host: *mut Host, id: u64) -> i64;
    pub fn host_sendto(host: *mut Host, id: u64, addr: u32, port: u16, octets: *const u8, len: usize) -> i64;
    pub fn host_recvfrom(host: *mut Host, id: u64, buffer: *mut u8, len: usize, from: *mut Endpoint) -> i64;
    pub fn host_state(host: *mut Host, id: u64) -> i64;
    pub fn host_sockname(host: *mut Host, id: u64, end: *mut Endpoint) -> i64;
    pub fn host_peername(host: *mut Host, id: u64, end: *mut Endpoint) -> i64;
    pub fn host_would_connect(host: *mut Host, id: u64, addr: u32, port: u16, pair: *mut [Endpoint; 2]) -> i64;
    pub fn host_would_open(host: *mut Host, frame: *const u8, len: usize, pair: *mut [Endpoint; 2]) -> i64;
    pub fn host_info_into(host: *mut Host, id: u64, numbers: *mut i64, count: usize) -> i64;
    pub fn host_counters_into(host: *mut Host, numbers: *mut i64, count: usize) -> i64;
    pub fn host_ready(host: *mut Host, id: u64) -> i64;
    pub fn host_next_ready(host: *mut Host, after: u64, mask: u32, bits: *mut u32) -> i64;
    pub fn host_recv_len(host: *mut Host, id: u64) -> i64;
    pub fn host_send_room(host: *mut Host, id: u64) -> i64;
    pub fn host_concerns(host: *mut Host, frame: *const u8, len: usize) -> i64;
    pub fn host_tick(host: *mut Host, now: u64);
    pub fn host_next_deadline(host: *mut Host, moment: *mut u64) -> i64;
    pub fn host_deliver(host: *mut Host, now: u64, isn: u32, frame: *const u8, len: usize) -> i64;
    pub fn host_next_frame(host: *mut Host, now: u64, out: *mut [u8; 1514]) -> i64;
}
