// A host of gVisor's netstack by the clock of the driver, for gvisor.c. Its packets are dealt with by goroutines of its own; after each call that may
// wake them they run until all wait again.
package main

// #include <stdint.h>
import "C"

import (
	"bytes"
	"math/rand"
	"runtime"
	"sync"
	"time"
	"unsafe"

	"gvisor.dev/gvisor/pkg/bufferv2"
	"gvisor.dev/gvisor/pkg/tcpip"
	"gvisor.dev/gvisor/pkg/tcpip/header"
	"gvisor.dev/gvisor/pkg/tcpip/link/channel"
	"gvisor.dev/gvisor/pkg/tcpip/link/ethernet"
	"gvisor.dev/gvisor/pkg/tcpip/network/arp"
	"gvisor.dev/gvisor/pkg/tcpip/network/ipv4"
	"gvisor.dev/gvisor/pkg/tcpip/stack"
	"gvisor.dev/gvisor/pkg/tcpip/transport/tcp"
	"gvisor.dev/gvisor/pkg/tcpip/transport/udp"
	"gvisor.dev/gvisor/pkg/waiter"
)

const (
	nic       = 1
	frameSize = 1514
	queueSize = 16384
	backlog   = 16
	// How a connection stands: enum standing of stack.h.
	opening = 0
	open    = 1
	refused = 2
	reset   = 3
	silent  = 4
)

// ---- The clock ----------------------------------------------------------------------------------------------------------------------------

type timer struct {
	clock *clock
	at    time.Duration
	runs  bool
	call  func()
}

// The moments of a clock are from its origin on, and no two that it tells are the same: of two segments of one moment gVisor's RACK takes the later
// one for the earlier (rack.go), and then for lost.
type clock struct {
	mutex  sync.Mutex
	now    time.Duration
	timers map[*timer]bool
}

func (c *clock) Now() time.Time {
	return time.Unix(0, 0).Add(c.since())
}

func (c *clock) NowMonotonic() tcpip.MonotonicTime {
	return tcpip.MonotonicTime{}.Add(c.since())
}

func (c *clock) since() time.Duration {
	c.mutex.Lock()
	defer c.mutex.Unlock()
	c.now++
	return c.now
}

func (c *clock) goOn(to time.Duration) {
	c.mutex.Lock()
	defer c.mutex.Unlock()
	if to > c.now {
		c.now = to
	}
}

func (c *clock) AfterFunc(wait time.Duration, call func()) tcpip.Timer {
	t := &timer{clock: c, call: call}
	t.Reset(wait)
	return t
}

func (t *timer) Stop() bool {
	t.clock.mutex.Lock()
	defer t.clock.mutex.Unlock()
	ran := t.runs
	t.runs = false
	delete(t.clock.timers, t)
	return ran
}

func (t *timer) Reset(wait time.Duration) {
	t.clock.mutex.Lock()
	defer t.clock.mutex.Unlock()
	t.at, t.runs = t.clock.now+wait, true
	t.clock.timers[t] = true
}

// The timer that acts first, or nil.
func (c *clock) first() *timer {
	c.mutex.Lock()
	defer c.mutex.Unlock()
	var least *timer
	for t := range c.timers {
		if least == nil || t.at < least.at {
			least = t
		}
	}
	return least
}

// Goes on to a moment; each timer up to it acts.
func (c *clock) advance(to time.Duration) {
	for t := c.first(); t != nil && t.at <= to; t = c.first() {
		c.goOn(t.at)
		if t.Stop() {
			t.call()
			settle()
		}
	}
	c.goOn(to)
}

// Lets the goroutines run, of which one at a time does.
func settle() {
	for i := 0; i < 8; i++ {
		runtime.Gosched()
	}
}

// ---- Hosts --------------------------------------------------------------------------------------------------------------------------------

type connection struct {
	endpoint tcpip.Endpoint
	unread   bytes.Buffer // what was taken of it to learn whether its end has come: an octet
	ended    bool
	standing C.int
}

type host struct {
	clock       *clock
	stack       *stack.Stack
	link        *channel.Endpoint
	addr, peer  tcpip.Address
	listener    tcpip.Endpoint
	datagrams   tcpip.Endpoint
	connections map[uint64]*connection
	last        uint64
}

var hosts [2]*host

func want(err tcpip.Error, what string) {
	if err != nil {
		panic(what + ": " + err.String())
	}
}

//export gvisor_make
func gvisor_make(end C.int) {
	runtime.GOMAXPROCS(1)
	h := &host{clock: &clock{timers: map[*timer]bool{}}, connections: map[uint64]*connection{}}
	last := byte(1 + end)
	h.addr, h.peer = tcpip.Address([]byte{10, 0, 0, last}), tcpip.Address([]byte{10, 0, 0, 3 - last})
	h.stack = stack.New(stack.Options{
		Clock:              h.clock,
		RandSource:         rand.NewSource(int64(last)),
		NetworkProtocols:   []stack.NetworkProtocolFactory{ipv4.NewProtocol, arp.NewProtocol},
		TransportProtocols: []stack.TransportProtocolFactory{tcp.NewProtocol, udp.NewProtocol},
	})
	h.link = channel.New(queueSize, frameSize, tcpip.LinkAddress([]byte{2, 0, 0, 0, 0, last}))
	want(h.stack.CreateNIC(nic, ethernet.New(h.link)), "CreateNIC")
	at := tcpip.ProtocolAddress{Protocol: ipv4.ProtocolNumber, AddressWithPrefix: tcpip.AddressWithPrefix{Address: h.addr, PrefixLen: 24}}
	want(h.stack.AddProtocolAddress(nic, at, stack.AddressProperties{}), "AddProtocolAddress")
	h.stack.SetRouteTable([]tcpip.Route{{Destination: header.IPv4EmptySubnet, NIC: nic}})
	reports := tcpip.TCPSACKEnabled(true)
	want(h.stack.SetTransportProtocolOption(tcp.ProtocolNumber, &reports), "TCPSACKEnabled")
	hosts[end] = h
}

// Takes the octets of a frame.
func octetsOf(at *C.uint8_t, count C.size_t) []byte {
	return unsafe.Slice((*byte)(at), int(count))
}

//export gvisor_deliver
func gvisor_deliver(end C.int, frame *C.uint8_t, count C.size_t) {
	octets := append([]byte(nil), octetsOf(frame, count)...)
	packet := stack.NewPacketBuffer(stack.PacketBufferOptions{Payload: bufferv2.MakeWithData(octets)})
	hosts[end].link.InjectInbound(0, packet)
	packet.DecRef()
	settle()
}

//export gvisor_next_frame
func gvisor_next_frame(end C.int, out *C.uint8_t) C.size_t {
	packet := hosts[end].link.Read()
	if packet.IsNil() {
		return 0
	}
	defer packet.DecRef()
	count := 0
	for _, part := range packet.AsSlices() {
		count += copy(octetsOf(out, frameSize)[count:], part)
	}
	return C.size_t(count)
}

//export gvisor_next
func gvisor_next(end C.int) C.uint64_t {
	t := hosts[end].clock.first()
	if t == nil {
		return ^C.uint64_t(0)
	}
	return C.uint64_t((t.at + time.Millisecond - 1) / time.Millisecond)
}

//export gvisor_tick
func gvisor_tick(end C.int, moment C.uint64_t) {
	hosts[end].clock.advance(time.Duration(moment) * time.Millisecond)
	settle()
}

// ---- Connections --------------------------------------------------------------------------------------------------------------------------

func (h *host) added(endpoint tcpip.Endpoint, standing C.int) C.uint64_t {
	h.last++
	h.connections[h.last] = &connection{endpoint: endpoint, standing: standing}
	return C.uint64_t(h.last)
}

func (h *host) bound(port C.uint16_t, transport tcpip.TransportProtocolNumber) tcpip.Endpoint {
	endpoint, err := h.stack.NewEndpoint(transport, ipv4.ProtocolNumber, new(waiter.Queue))
	want(err, "NewEndpoint")
	want(endpoint.Bind(tcpip.FullAddress{Port: uint16(port)}), "Bind")
	return endpoint
}

//export gvisor_listen
func gvisor_listen(end C.int, port C.uint16_t) {
	h := hosts[end]
	h.listener = h.bound(port, tcp.ProtocolNumber)
	want(h.listener.Listen(backlog), "Listen")
}

//export gvisor_accept
func gvisor_accept(end C.int) C.uint64_t {
	endpoint, _, err := hosts[end].listener.Accept(nil)
	if _, waits := err.(*tcpip.ErrWouldBlock); waits {
		return 0
	}
	want(err, "Accept")
	return hosts[end].added(endpoint, open)
}

//export gvisor_connect
func gvisor_connect(end C.int, from, to C.uint16_t) C.uint64_t {
	h := hosts[end]
	endpoint := h.bound(from, tcp.ProtocolNumber)
	err := endpoint.Connect(tcpip.FullAddress{NIC: nic, Addr: h.peer, Port: uint16(to)})
	if _, begun := err.(*tcpip.ErrConnectStarted); !begun {
		want(err, "Connect")
	}
	settle()
	return h.added(endpoint, opening)
}

// What an error of a call tells of a connection.
func (c *connection) learn(err tcpip.Error) {
	switch err.(type) {
	case *tcpip.ErrConnectionRefused:
		c.standing = refused
	case *tcpip.ErrConnectionReset:
		c.standing = reset
	case *tcpip.ErrTimeout, *tcpip.ErrHostUnreachable:
		c.standing = silent
	case *tcpip.ErrClosedForReceive:
		c.ended = true
	}
}

// Takes an octet where there is one and none is held.
func (c *connection) look() {
	if c.unread.Len() == 0 && c.standing == open && !c.ended {
		var octet bytes.Buffer
		_, err := c.endpoint.Read(&tcpip.LimitedWriter{W: &octet, N: 1}, tcpip.ReadOptions{})
		c.unread = octet
		c.learn(err)
		settle()
	}
}

//export gvisor_standing
func gvisor_standing(end C.int, id C.uint64_t) C.int {
	c := hosts[end].connections[uint64(id)]
	if c.standing == opening {
		if tcp.EndpointState(c.endpoint.State()) == tcp.StateError {
			c.learn(c.endpoint.LastError())
		} else if c.endpoint.Readiness(waiter.WritableEvents) != 0 {
			c.standing = open
		}
	}
	c.look()
	return c.standing
}

//export gvisor_send
func gvisor_send(end C.int, id C.uint64_t, octets *C.uint8_t, count C.size_t) C.size_t {
	c := hosts[end].connections[uint64(id)]
	taken, err := c.endpoint.Write(bytes.NewReader(octetsOf(octets, count)), tcpip.WriteOptions{})
	c.learn(err)
	settle()
	return C.size_t(taken)
}

//export gvisor_recv
func gvisor_recv(end C.int, id C.uint64_t, buffer *C.uint8_t, count C.size_t) C.size_t {
	c := hosts[end].connections[uint64(id)]
	room := octetsOf(buffer, count)
	read, _ := c.unread.Read(room)
	if read < len(room) && !c.ended {
		var came bytes.Buffer
		_, err := c.endpoint.Read(&tcpip.LimitedWriter{W: &came, N: int64(len(room) - read)}, tcpip.ReadOptions{})
		c.learn(err)
		read += copy(room[read:], came.Bytes())
		settle()
	}
	return C.size_t(read)
}

//export gvisor_ended
func gvisor_ended(end C.int, id C.uint64_t) C.int {
	c := hosts[end].connections[uint64(id)]
	c.look()
	if c.ended && c.unread.Len() == 0 {
		return 1
	}
	return 0
}

//export gvisor_shutdown
func gvisor_shutdown(end C.int, id C.uint64_t) {
	want(hosts[end].connections[uint64(id)].endpoint.Shutdown(tcpip.ShutdownWrite), "Shutdown")
	settle()
}

//export gvisor_close
func gvisor_close(end C.int, id C.uint64_t) {
	hosts[end].connections[uint64(id)].endpoint.Close()
	delete(hosts[end].connections, uint64(id))
	settle()
}

//export gvisor_abort
func gvisor_abort(end C.int, id C.uint64_t) {
	hosts[end].connections[uint64(id)].endpoint.Abort()
	delete(hosts[end].connections, uint64(id))
	settle()
}

// ---- Datagrams ----------------------------------------------------------------------------------------------------------------------------

//export gvisor_bind
func gvisor_bind(end C.int, port C.uint16_t) {
	hosts[end].datagrams = hosts[end].bound(port, udp.ProtocolNumber)
}

//export gvisor_send_datagram
func gvisor_send_datagram(end C.int, port C.uint16_t, octets *C.uint8_t, count C.size_t) C.int {
	to := tcpip.FullAddress{NIC: nic, Addr: hosts[end].peer, Port: uint16(port)}
	_, err := hosts[end].datagrams.Write(bytes.NewReader(octetsOf(octets, count)), tcpip.WriteOptions{To: &to})
	settle()
	if err != nil {
		return 0
	}
	return 1
}

//export gvisor_recv_datagram
func gvisor_recv_datagram(end C.int, buffer *C.uint8_t, count C.size_t) C.int64_t {
	var came bytes.Buffer
	_, err := hosts[end].datagrams.Read(&came, tcpip.ReadOptions{})
	if err != nil {
		return -1
	}
	return C.int64_t(copy(octetsOf(buffer, count), came.Bytes()))
}

func main() {}
