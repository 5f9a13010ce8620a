//! One network: its interface, which may go and come again, its socket, the frames read and not yet called, its counters.

use crate::filter::Instruction;
use crate::frame;
use crate::order::{Order, BATCH, NETWORKS};
use crate::ring::{self, Mapping, Ring};
use crate::say::{say, say_now};
use crate::socket::{self, Room, Seen, Socket, State};
use crate::trouble::{failed, words, Trouble};
use std::io;
use std::thread;
use std::time::Duration;

/// The kernel turns its stamps on a moment after the first socket has asked for them.
const STAMPS_ON: Duration = Duration::from_millis(20);

/// How each socket is set up, the first time and again.
pub struct Setup {
    /// None is every frame.
    pub filter: Option<Vec<Instruction>>,
    /// In bytes.
    pub room: i32,
    pub ring: bool,
}

/// A socket and where its frames are read: in the ring that the kernel fills, or in rooms that they are copied to.
struct Source {
    socket: Socket,
    ring: Option<Ring<Mapping>>,
}

impl Setup {
    /// A socket that is not bound yet, with a ring if that is asked for and to be had. What is not to be had is told.
    fn source(&self, mut warn: impl FnMut(String)) -> Result<Source, socket::Failure> {
        if self.ring {
            let socket = Socket::new(self.filter.as_deref())?;
            let (blocks, _) = ring::blocks(self.room as usize);
            match socket.make_ring(blocks) {
                Ok(ring) => {
                    let ring = Some(ring);
                    return Ok(Source { socket, ring });
                }
                Err((step, e)) => warn(format!(
                    ": no ring: {step}: {}; frames are read by system calls",
                    words(&e)
                )),
            }
        }
        // Another one: some steps to a ring may be done, and are not undone.
        let socket = Socket::new(self.filter.as_deref())?;
        if !socket.make_room(self.room) {
            warn(" has no more room for waiting frames than net.core.rmem_max allows".to_string());
        }
        let ring = None;
        Ok(Source { socket, ring })
    }
}

#[derive(Clone, Copy, Default)]
pub struct Counts {
    pub frames: u64,
    /// In the wait at the start: they were not called.
    pub early: u64,
    pub outgoing: u64,
    pub dropped: u64,
    pub unstamped: u64,
    /// Longer than a place that frames are read into.
    pub cut: u64,
    pub reopened: u64,
    /// On a PRP line: frames with the other network's LAN.
    pub crossed: u64,
}

pub struct Port {
    network: usize,
    pub interface: String,
    /// Where the interface is gone, the dead one: while it is open, the kernel goes on stamping.
    source: Source,
    gone: bool,
    /// It is gone, and nothing is left in its socket.
    drained: bool,
    /// That was found just now.
    just_drained: bool,
    /// What the socket can't be given was said.
    warned: bool,
    /// For frames that are read without a ring.
    rooms: Vec<Room>,
    seen: Vec<Seen>,
    /// So many of the batch's slots have gone back to the kernel.
    freed: usize,
    pub counts: Counts,
}

/// The numbers of the interfaces.
pub fn find_all(interfaces: &[String; NETWORKS]) -> Result<Vec<i32>, Trouble> {
    let numbers = interfaces
        .iter()
        .map(|interface| {
            let there_is_no = || Trouble::Refused(format!("there is no interface '{interface}'"));
            socket::interface_number(interface).ok_or_else(there_is_no)
        })
        .collect::<Result<Vec<i32>, Trouble>>()?;
    // One wire for both would make each frame its own twin. By number: an interface may have two names.
    if numbers[0] == numbers[1] {
        return Err(both_on(&interfaces[0]));
    }
    Ok(numbers)
}

pub fn both_on(interface: &str) -> Trouble {
    Trouble::Refused(format!("both networks are on interface '{interface}'"))
}

/// Where frames are read into without a ring, for each network.
pub fn rooms() -> [Vec<Room>; NETWORKS] {
    [(); NETWORKS].map(|()| vec![[0; std::mem::size_of::<Room>()]; BATCH])
}

/// Opens the ports of all networks.
pub fn open_all(
    interfaces: &[String; NETWORKS],
    numbers: Vec<i32>,
    setup: &Setup,
    rooms: [Vec<Room>; NETWORKS],
) -> Result<Vec<Port>, Trouble> {
    if setup.ring && ring::blocks(setup.room as usize).1 {
        let (kb, most) = (setup.room >> 10, ring::SLOTS_MOST);
        say(&format!(
            "warning: --room {kb}: the ring has its most, {most} frames"
        ));
    }
    let mut ports = Vec::new();
    for (network, (interface, rooms)) in interfaces.iter().zip(rooms).enumerate() {
        let mut warned = false;
        let source = setup
            .source(|what| {
                say(&format!("warning: {interface}{what}"));
                warned = true;
            })
            .map_err(without_right)?;
        ports.push(Port {
            network,
            interface: interface.clone(),
            source,
            gone: false,
            drained: false,
            just_drained: false,
            warned,
            rooms,
            seen: Vec::with_capacity(BATCH),
            freed: 0,
            counts: Counts::default(),
        });
    }
    thread::sleep(STAMPS_ON);
    for (port, number) in ports.iter().zip(numbers) {
        let socket = &port.source.socket;
        socket.bind(number).map_err(failed(&port.interface))?;
    }
    Ok(ports)
}

/// Why a socket can't be opened, and what is to be done about it where that is known.
fn without_right((what, e): socket::Failure) -> Trouble {
    if what != socket::OPENING || !socket::is_without_right(&e) {
        return failed(what)(e);
    }
    Trouble::Failed(format!(
        "{what}: {}; it needs the right CAP_NET_RAW: run it as root, give it the right by 'setcap \
         cap_net_raw,cap_net_admin+ep PROGRAM', or use the unit nippitsun-receive.service",
        words(&e)
    ))
}

impl Port {
    /// The socket to wait for. A dead one that was emptied has no more frames.
    pub fn socket(&self) -> Option<&Socket> {
        (!self.drained).then_some(&self.source.socket)
    }

    pub fn state(&self) -> Result<State, Trouble> {
        self.source.socket.state().map_err(failed("getsockname"))
    }

    /// Reads what waits, until the socket says that it is empty or the batch is full. Frames read before come first.
    pub fn fill(&mut self, order: &mut Order) -> Result<(), Trouble> {
        if !order.wants(self.network) {
            return Ok(());
        }
        self.seen.clear();
        self.freed = 0;
        let empty = self.drained || self.read()?;
        for i in 0..self.seen.len() {
            order.read(self.network, self.seen[i].stamp);
            self.count(self.seen[i]);
        }
        if empty {
            order.empty(self.network);
            self.just_drained |= self.gone && !self.drained;
            self.drained = self.gone;
        }
        Ok(())
    }

    /// Answers whether the socket said that it is empty.
    fn read(&mut self) -> Result<bool, Trouble> {
        match &mut self.source.ring {
            Some(ring) => Ok(read_ring(ring, &mut self.seen)),
            None => self.read_socket(),
        }
    }

    fn read_socket(&mut self) -> Result<bool, Trouble> {
        while self.seen.len() < BATCH {
            let before = self.seen.len();
            let socket = &self.source.socket;
            match socket.receive(&mut self.rooms[before..], &mut self.seen) {
                Ok(()) => {}
                Err(e) if e.kind() == io::ErrorKind::WouldBlock => return Ok(true),
                Err(e) if e.kind() == io::ErrorKind::Interrupted => {}
                // It says so before the frames that still wait: it is not empty yet.
                Err(e) if socket::is_down(&e) => self.look_if_gone()?,
                Err(e) => return Err(failed("receive")(e)),
            }
        }
        Ok(false)
    }

    fn count(&mut self, seen: Seen) {
        self.counts.frames += 1;
        self.counts.unstamped += u64::from(seen.stamp.is_none());
        self.counts.outgoing += u64::from(seen.outgoing);
        let is_cut = seen.whole > ring::FRAME_MOST;
        self.counts.cut += u64::from(is_cut);
        if is_cut && self.counts.cut == 1 {
            let (network, interface, whole) = (self.network, &self.interface, seen.whole);
            say_now(&format!(
                "cut: network {network} ({interface}): a frame of {whole} bytes is longer than a place that frames are read \
                 into; such frames are refused with 3"
            ));
        }
    }

    /// The frame that was read so many-th in this batch, with its VLAN tag; none if this machine sent it. A packet socket
    /// shows that too.
    pub fn frame(&mut self, place: usize) -> Option<&[u8]> {
        let seen = self.seen[place];
        if seen.outgoing {
            return None;
        }
        let room = match &mut self.source.ring {
            Some(ring) => ring.room(place - self.freed, seen.length),
            None => &mut self.rooms[place][..],
        };
        Some(frame::put_back(room, seen.length, seen.vlan))
    }

    /// A frame came before the streams were open.
    pub fn count_early(&mut self, place: usize) {
        self.counts.early += u64::from(!self.seen[place].outgoing);
    }

    /// At the end of a turn: the slots whose frames were called go back to the kernel. The wait would end at once for them.
    pub fn free(&mut self, order: &Order) {
        let called = order.called(self.network);
        if let Some(ring) = &mut self.source.ring {
            ring.give_back(called - self.freed);
        }
        self.freed = called;
    }

    /// A frame of a PRP line came with the LAN of this network, which is not the port's. Said once: with crossed cables it is so
    /// of every frame.
    pub fn count_crossed(&mut self, network: usize) {
        self.counts.crossed += 1;
        if self.counts.crossed == 1 {
            let (lan, network, interface) = (["A", "B"][network], self.network, &self.interface);
            say(&format!(
                "warning: LAN {lan} came on the card for network {network}, {interface}: are the cables crossed?"
            ));
        }
    }

    /// The number of the interface that the socket is bound to.
    fn bound_to(&self) -> Result<Option<i32>, Trouble> {
        let socket = &self.source.socket;
        socket.interface().map_err(failed("getsockname"))
    }

    /// An error waits on the socket: the interface went down, or away.
    pub fn went_down(&mut self) -> Result<(), Trouble> {
        let taken = self.source.socket.take_error();
        taken.map_err(failed("SO_ERROR"))?;
        self.look_if_gone()
    }

    fn look_if_gone(&mut self) -> Result<(), Trouble> {
        if !self.gone && self.bound_to()?.is_none() {
            self.gone = true;
            let (network, interface) = (self.network, &self.interface);
            say_now(&format!(
                "gone: network {network} ({interface}): the interface is not there; trying each second"
            ));
        }
        Ok(())
    }

    /// Behind each turn: an interface that is gone is looked for at once, and then each second. What its dead socket holds is
    /// read and called first. It is not opened where the other network has it: that one's interface may have this name by now.
    pub fn look(
        &mut self,
        other: &Port,
        order: &Order,
        setup: &Setup,
        each_second: bool,
    ) -> Result<(), Trouble> {
        if each_second {
            self.look_if_gone()?;
        }
        let due = each_second || self.just_drained;
        if !due || !self.drained || order.has_frames_of(self.network) {
            return Ok(());
        }
        self.just_drained = false;
        if let Some(ring) = self.source.ring.take() {
            // The next ring is made of this memory. Beside it, a large one takes the machine ten times as long. Where that
            // fails it takes as long.
            let _ = self.source.socket.drop_ring(ring);
        }
        // Whatever is missing now, it is tried again.
        let others = other.bound_to()?;
        let number =
            socket::interface_number(&self.interface).filter(|number| Some(*number) != others);
        let source = match number.and_then(|number| self.open(number, setup)) {
            Some(source) => source,
            None => return Ok(()),
        };
        self.count_dropped()?;
        self.source = source;
        self.gone = false;
        self.drained = false;
        self.counts.reopened += 1;
        let (network, interface) = (self.network, &self.interface);
        say_now(&format!(
            "again: network {network} ({interface}): the interface is there and open"
        ));
        Ok(())
    }

    /// A socket on the interface of this number, which is not the other network's: no name is looked up again.
    fn open(&mut self, number: i32, setup: &Setup) -> Option<Source> {
        let mut warnings = Vec::new();
        let source = setup.source(|what| warnings.push(what)).ok()?;
        source.socket.bind(number).ok()?;
        for what in &warnings {
            if !self.warned {
                say(&format!("warning: {}{what}", self.interface));
            }
        }
        self.warned |= !warnings.is_empty();
        Some(source)
    }

    /// The kernel's count begins anew each time it is read.
    pub fn count_dropped(&mut self) -> Result<(), Trouble> {
        let dropped = self.source.socket.dropped();
        let dropped = dropped.map_err(failed("PACKET_STATISTICS"))?;
        self.counts.dropped += u64::from(dropped);
        Ok(())
    }
}

/// Answers whether the ring is empty. A small one may be lent out before a batch is full, which is no proof of it.
fn read_ring(ring: &mut Ring<Mapping>, seen: &mut Vec<Seen>) -> bool {
    while seen.len() < BATCH && !ring.is_lent_out() {
        match ring.take() {
            Some(frame) => seen.push(frame),
            None => return true,
        }
    }
    false
}
