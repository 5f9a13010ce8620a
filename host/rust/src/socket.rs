//! Packet sockets (packet(7)), the wait for them, signals, standard output and the time of day, by the C library's own calls,
//! declared by hand so that no further crate is needed. Numbers and layouts are those of Linux on x86-64 and on Arm of 64
//! bits. Unsafe code stands here and in `ring` alone.
#![allow(unsafe_code)]

use crate::filter::Instruction;
use crate::frame::{VLAN_MARK, VLAN_TAG};
use crate::order::{Time, BATCH, NETWORKS};
use crate::ring::{self, Mapping, Ring};
use crate::ring::{FRAME_MOST, TP_STATUS_VLAN_TPID_VALID, TP_STATUS_VLAN_VALID};
use std::ffi::CString;
use std::fs::{self, File, OpenOptions};
use std::io::{self, Read, Write};
use std::mem::size_of;
use std::os::raw::{c_char, c_int, c_long, c_short, c_uint, c_ulong, c_void};
use std::os::unix::fs::{FileTypeExt, OpenOptionsExt};
use std::os::unix::io::{AsFd, AsRawFd, FromRawFd, OwnedFd};
use std::ptr;
use std::sync::atomic::{AtomicBool, Ordering};
use std::sync::Mutex;
use std::time::{SystemTime, UNIX_EPOCH};

#[cfg(not(all(
    target_os = "linux",
    target_pointer_width = "64",
    target_endian = "little",
    any(target_arch = "x86_64", target_arch = "aarch64")
)))]
compile_error!("the numbers below are those of Linux on x86-64 and on Arm of 64 bits");

const AF_PACKET: c_int = 17;
const SOCK_RAW: c_int = 3;
const SOCK_CLOEXEC: c_int = 0o2000000;
const ETH_P_ALL: u16 = 3;
const SOL_SOCKET: c_int = 1;
const SO_ERROR: c_int = 4;
const SO_RCVBUF: c_int = 8;
const SO_ATTACH_FILTER: c_int = 26;
const SO_RCVBUFFORCE: c_int = 33;
const SO_TIMESTAMPING: c_int = 37;
const SOF_TIMESTAMPING_RX_SOFTWARE: c_int = 1 << 3;
const SOF_TIMESTAMPING_SOFTWARE: c_int = 1 << 4;
const SOL_PACKET: c_int = 263;
const PACKET_ADD_MEMBERSHIP: c_int = 1;
const PACKET_RX_RING: c_int = 5;
const PACKET_STATISTICS: c_int = 6;
const PACKET_AUXDATA: c_int = 8;
const PACKET_VERSION: c_int = 10;
const PACKET_RESERVE: c_int = 12;
const PACKET_TIMESTAMP: c_int = 17;
const PACKET_MR_PROMISC: u16 = 1;
pub const PACKET_OUTGOING: u8 = 4;
const TPACKET_V2: c_int = 1;
const MSG_TRUNC: c_int = 0x20;
const MSG_DONTWAIT: c_int = 0x40;
const MSG_NOSIGNAL: c_int = 0x4000;
const SIOCGIFFLAGS: c_ulong = 0x8913;
const IFF_UP: u16 = 1;
const IFF_RUNNING: u16 = 0x40;
const POLLIN: c_short = 1;
const POLLOUT: c_short = 4;
const POLLERR: c_short = 8;
const EPERM: c_int = 1;
const ENOTSOCK: c_int = 88;
const ENETDOWN: c_int = 100;
const O_NOCTTY: c_int = 0o400;
const O_NONBLOCK: c_int = 0o4000;
const F_GETFD: c_int = 1;
const F_GETFL: c_int = 3;
const F_SETFL: c_int = 4;
const LOCK_EX: c_int = 2;
const LOCK_NB: c_int = 4;
const STANDARD_OUTPUT: c_int = 1;
const STANDARD_ERROR: c_int = 2;
const SIG_BLOCK: c_int = 0;
const SIGINT: u32 = 2;
const SIGUSR1: u32 = 10;
const SIGTERM: u32 = 15;
const MCL_CURRENT: c_int = 1;
const SFD_CLOEXEC: c_int = 0o2000000;

/// `struct sockaddr_ll`: an interface, or where a frame came from.
#[repr(C)]
#[derive(Clone, Copy, Default)]
struct Address {
    family: u16,
    protocol: u16,
    interface: c_int,
    hardware: u16,
    packet: u8,
    length: u8,
    bytes: [u8; 8],
}

/// `struct packet_mreq`.
#[repr(C)]
#[derive(Default)]
struct Membership {
    interface: c_int,
    kind: u16,
    length: u16,
    bytes: [u8; 8],
}

/// `struct sock_fprog`.
#[repr(C)]
struct Program {
    length: u16,
    start: *const Instruction,
}

/// What the kernel writes beside a frame: records, each with a `struct cmsghdr` in front.
#[repr(C, align(8))]
#[derive(Clone, Copy)]
struct Control {
    bytes: [u8; CONTROL],
}

/// `struct cmsghdr`: length, with itself, of the record; level; kind.
const CONTROL_HEAD: usize = 16;
/// One record with `struct scm_timestamping`, and one with `struct tpacket_auxdata`, which is padded to 24 bytes.
const CONTROL: usize = CONTROL_HEAD + 48 + CONTROL_HEAD + 24;

/// `struct iovec`.
#[repr(C)]
#[derive(Clone, Copy)]
struct Part {
    start: *mut u8,
    length: usize,
}

/// `struct msghdr`.
#[repr(C)]
struct Head {
    name: *mut Address,
    name_length: c_uint,
    parts: *mut Part,
    parts_length: usize,
    control: *mut Control,
    control_length: usize,
    flags: c_int,
}

/// `struct mmsghdr`, which says how long the frame is.
#[repr(C)]
struct Message {
    head: Head,
    received: c_uint,
}

/// `struct pollfd`.
#[repr(C)]
struct Poll {
    file: c_int,
    events: c_short,
    came: c_short,
}

/// `struct timespec`.
#[repr(C)]
struct Pause {
    seconds: c_long,
    nanoseconds: c_long,
}

/// `struct tpacket_stats`.
#[repr(C)]
#[derive(Clone, Copy, Default)]
struct Statistics {
    frames: c_uint,
    dropped: c_uint,
}

/// `struct tpacket_req`.
#[repr(C)]
struct RingSize {
    block: c_uint,
    blocks: c_uint,
    slot: c_uint,
    slots: c_uint,
}

/// `struct ifreq`, with the flags of an interface.
#[repr(C)]
struct Flags {
    name: [u8; NAME],
    flags: u16,
    rest: [u8; 22],
}

/// IFNAMSIZ.
const NAME: usize = 16;

/// `struct tm`. Months count from 0, years from 1900; the offset is in seconds east of Greenwich.
#[repr(C)]
struct Calendar {
    second: c_int,
    minute: c_int,
    hour: c_int,
    day: c_int,
    month: c_int,
    year: c_int,
    day_of_week: c_int,
    day_of_year: c_int,
    summer: c_int,
    offset: c_long,
    zone: *const c_char,
}

/// `sigset_t`: signal n is bit n - 1.
#[repr(C)]
struct SignalSet([c_ulong; 16]);

const _: () = assert!(size_of::<Address>() == 20 && size_of::<Membership>() == 16);
const _: () = assert!(size_of::<Instruction>() == 8 && size_of::<Program>() == 16);
const _: () = assert!(size_of::<Control>() == 104 && size_of::<Head>() == 56);
const _: () = assert!(size_of::<Part>() == 16 && size_of::<Message>() == 64);
const _: () = assert!(size_of::<Pause>() == 16 && size_of::<Statistics>() == 8);
const _: () = assert!(size_of::<Poll>() == 8 && size_of::<SignalSet>() == 128);
const _: () = assert!(size_of::<RingSize>() == 16 && size_of::<Flags>() == 40);
const _: () = assert!(size_of::<Calendar>() == 56);

extern "C" {
    fn if_nametoindex(name: *const c_char) -> c_uint;
    fn if_indextoname(number: c_uint, name: *mut u8) -> *mut c_char;
    fn ioctl(file: c_int, request: c_ulong, ...) -> c_int;
    fn fcntl(file: c_int, request: c_int, ...) -> c_int;
    fn flock(file: c_int, how: c_int) -> c_int;
    fn localtime_r(seconds: *const c_long, to: *mut Calendar) -> *mut Calendar;
    fn socket(domain: c_int, kind: c_int, protocol: c_int) -> c_int;
    fn bind(socket: c_int, address: *const Address, length: c_uint) -> c_int;
    fn getsockname(socket: c_int, address: *mut Address, length: *mut c_uint) -> c_int;
    fn setsockopt(socket: c_int, level: c_int, name: c_int, at: *const c_void, n: c_uint) -> c_int;
    fn getsockopt(
        socket: c_int,
        level: c_int,
        name: c_int,
        at: *mut c_void,
        n: *mut c_uint,
    ) -> c_int;
    fn send(socket: c_int, at: *const u8, length: usize, flags: c_int) -> isize;
    fn recvmmsg(
        socket: c_int,
        messages: *mut Message,
        length: c_uint,
        flags: c_int,
        limit: *mut Pause,
    ) -> c_int;
    fn ppoll(
        files: *mut Poll,
        length: c_ulong,
        limit: *const Pause,
        signals: *const SignalSet,
    ) -> c_int;
    fn sigprocmask(how: c_int, set: *const SignalSet, before: *mut SignalSet) -> c_int;
    fn signalfd(file: c_int, set: *const SignalSet, flags: c_int) -> c_int;
    fn mlockall(flags: c_int) -> c_int;
}

/// The calls above answer below 0 where they fail.
fn checked(answer: c_int) -> io::Result<c_int> {
    if answer < 0 {
        return Err(io::Error::last_os_error());
    }
    Ok(answer)
}

/// All memory that the program has now stays where it is. Not what it will ask for: a limit that is just enough for what it
/// has must not make later requests fail.
pub fn lock_memory() -> io::Result<()> {
    // A locked stack that grows counts against the limit too, so it has grown before.
    let mut stack = [0_u8; 1 << 16];
    for part in stack.chunks_mut(1024) {
        // SAFETY: a byte of the array.
        unsafe { ptr::write_volatile(&mut part[0], 1) };
    }
    // SAFETY: a number.
    checked(unsafe { mlockall(MCL_CURRENT) })?;
    Ok(())
}

/// The number of an interface, if it is there.
pub fn interface_number(interface: &str) -> Option<i32> {
    let name = CString::new(interface).ok()?;
    // SAFETY: the name ends with a zero byte and is there until the call ends.
    let number = unsafe { if_nametoindex(name.as_ptr()) } as c_int;
    (number != 0).then_some(number)
}

/// Bytes for one frame. In front there is room for the VLAN tag; there is one byte more than a frame may have, so that a
/// longer one, which is cut to this room, is still too long for the library.
pub type Room = [u8; VLAN_TAG + FRAME_MOST];

/// A frame that a socket had.
#[derive(Clone, Copy, Debug)]
pub struct Seen {
    /// Bytes of it in its room.
    pub length: usize,
    /// Bytes of it as the socket had it.
    pub whole: usize,
    /// Did this machine send it?
    pub outgoing: bool,
    /// The VLAN tag that the kernel took out of it.
    pub vlan: Option<[u8; VLAN_TAG]>,
    /// When the kernel had it, in nanoseconds of real time.
    pub stamp: Option<i64>,
}

/// What failed, and why.
pub type Failure = (&'static str, io::Error);

fn named(what: &'static str) -> impl FnOnce(io::Error) -> Failure {
    move |e| (what, e)
}

/// What is known of an interface.
#[derive(Clone, Copy, Debug, PartialEq, Eq)]
pub enum State {
    Up,
    /// By whoever is responsible for it.
    Down,
    NoCarrier,
    NotThere,
}

/// What fails where the program may not have a packet socket.
pub const OPENING: &str = "packet socket";

/// A packet socket.
pub struct Socket {
    file: OwnedFd,
}

impl Socket {
    /// A socket that has no interface yet. It needs the right CAP_NET_RAW. All but the room is set here: no frame comes in
    /// before the filter and the stamps.
    pub fn new(filter: Option<&[Instruction]>) -> Result<Socket, Failure> {
        // Type 0 is no frame at all: before it is bound, a socket would take those of every interface.
        // SAFETY: three numbers.
        let number = checked(unsafe { socket(AF_PACKET, SOCK_RAW | SOCK_CLOEXEC, 0) })
            .map_err(named(OPENING))?;
        let socket = Socket {
            // SAFETY: the number is a socket that was opened just now, and nothing else has it.
            file: unsafe { OwnedFd::from_raw_fd(number) },
        };
        if let Some(filter) = filter {
            let program = Program {
                length: filter.len() as u16,
                start: filter.as_ptr(),
            };
            socket
                .set(SOL_SOCKET, SO_ATTACH_FILTER, &program)
                .map_err(named("SO_ATTACH_FILTER"))?;
        }
        socket
            .set(SOL_PACKET, PACKET_AUXDATA, &1)
            .map_err(named("PACKET_AUXDATA"))?;
        // Not SO_TIMESTAMPNS: that gives a frame that has no stamp the time of its reading.
        let stamps = SOF_TIMESTAMPING_RX_SOFTWARE | SOF_TIMESTAMPING_SOFTWARE;
        socket
            .set(SOL_SOCKET, SO_TIMESTAMPING, &stamps)
            .map_err(named("SO_TIMESTAMPING"))?;
        Ok(socket)
    }

    fn set<T>(&self, level: c_int, name: c_int, value: &T) -> io::Result<()> {
        let (at, length) = (value as *const T, size_of::<T>() as c_uint);
        // SAFETY: the kernel only reads the value, which is there in the length that is given until the call ends. A filter's
        // program leads to a slice that its caller lends for as long.
        checked(unsafe { setsockopt(self.file.as_raw_fd(), level, name, at.cast(), length) })?;
        Ok(())
    }

    fn get<T: Copy>(&self, level: c_int, name: c_int, mut value: T) -> io::Result<T> {
        let mut length = size_of::<T>() as c_uint;
        let at = ptr::addr_of_mut!(value).cast();
        // SAFETY: the kernel writes at most so many bytes; they belong to this call until it ends. The values that are asked
        // for hold integers only.
        checked(unsafe { getsockopt(self.file.as_raw_fd(), level, name, at, &mut length) })?;
        Ok(value)
    }

    /// Asks for room for frames that wait, and answers whether all of it was given. Whoever has no right to pass the machine's
    /// limit (CAP_NET_ADMIN) has the limit itself, which may be enough.
    pub fn make_room(&self, bytes: i32) -> bool {
        let limited = || {
            self.set(SOL_SOCKET, SO_RCVBUF, &bytes)?;
            // The kernel doubles the number, for its own records of a frame.
            Ok(self.get(SOL_SOCKET, SO_RCVBUF, 0_i32)? / 2 >= bytes)
        };
        let forced = self.set(SOL_SOCKET, SO_RCVBUFFORCE, &bytes);
        forced.is_ok() || limited().unwrap_or_else(|_: io::Error| false)
    }

    /// A ring of so many blocks in the place of the socket's own room. Where it fails, the socket may be left with half of it.
    pub fn make_ring(&self, blocks: usize) -> Result<Ring<Mapping>, Failure> {
        self.set(SOL_PACKET, PACKET_VERSION, &TPACKET_V2)
            .map_err(named("PACKET_VERSION"))?;
        self.set(SOL_PACKET, PACKET_RESERVE, &ring::RESERVE)
            .map_err(named("PACKET_RESERVE"))?;
        self.set(SOL_PACKET, PACKET_TIMESTAMP, &SOF_TIMESTAMPING_SOFTWARE)
            .map_err(named("PACKET_TIMESTAMP"))?;
        let size = RingSize {
            block: ring::BLOCK as c_uint,
            blocks: blocks as c_uint,
            slot: ring::SLOT as c_uint,
            slots: (blocks * ring::SLOTS_OF_BLOCK) as c_uint,
        };
        self.set(SOL_PACKET, PACKET_RX_RING, &size)
            .map_err(named("PACKET_RX_RING"))?;
        let mapping = Mapping::new(self.file.as_raw_fd(), blocks * ring::BLOCK);
        Ok(Ring::new(mapping.map_err(named("mmap"))?))
    }

    /// Gives the memory of the socket's ring back to the machine.
    pub fn drop_ring(&self, ring: Ring<Mapping>) -> io::Result<()> {
        drop(ring);
        let none = RingSize {
            block: 0,
            blocks: 0,
            slot: 0,
            slots: 0,
        };
        self.set(SOL_PACKET, PACKET_RX_RING, &none)
    }

    /// From here on the socket takes the frames of this interface.
    pub fn bind(&self, interface: i32) -> io::Result<()> {
        let address = Address {
            family: AF_PACKET as u16,
            protocol: ETH_P_ALL.to_be(),
            interface,
            ..Address::default()
        };
        let length = size_of::<Address>() as c_uint;
        // SAFETY: the address is there in the length that is given until the call ends.
        checked(unsafe { bind(self.file.as_raw_fd(), &address, length) })?;
        // The streams' destinations are group addresses or not ours: the interface must let them through.
        let all = Membership {
            interface,
            kind: PACKET_MR_PROMISC,
            ..Membership::default()
        };
        self.set(SOL_PACKET, PACKET_ADD_MEMBERSHIP, &all)
    }

    /// The number of the socket's interface. None: it was removed. Then the socket has no frame any more, even if one of this
    /// name is made again.
    pub fn interface(&self) -> io::Result<Option<i32>> {
        let mut address = Address::default();
        let mut length = size_of::<Address>() as c_uint;
        // SAFETY: the kernel writes at most so many bytes; they belong to this call until it ends, and hold integers only.
        checked(unsafe { getsockname(self.file.as_raw_fd(), &mut address, &mut length) })?;
        Ok((address.interface > 0).then_some(address.interface))
    }

    /// What is known of the socket's interface, which may have another name by now.
    pub fn state(&self) -> io::Result<State> {
        let number = match self.interface()? {
            Some(number) => number,
            None => return Ok(State::NotThere),
        };
        let mut asked = Flags {
            name: [0; NAME],
            flags: 0,
            rest: [0; 22],
        };
        // SAFETY: the name is written into as many bytes as any name of an interface takes.
        let name = unsafe { if_indextoname(number as c_uint, asked.name.as_mut_ptr()) };
        // SAFETY: the kernel writes at most so many bytes as the struct has; they belong to this call until it ends.
        let answer = unsafe { ioctl(self.file.as_raw_fd(), SIOCGIFFLAGS, &mut asked) };
        if name.is_null() || answer < 0 {
            return Ok(State::NotThere);
        }
        Ok(match (asked.flags & IFF_UP, asked.flags & IFF_RUNNING) {
            (0, _) => State::Down,
            (_, 0) => State::NoCarrier,
            _ => State::Up,
        })
    }

    /// Takes an error off that waits on the socket: an interface that went down leaves one, and the wait would end at once
    /// until it is read.
    pub fn take_error(&self) -> io::Result<()> {
        self.get(SOL_SOCKET, SO_ERROR, 0_i32).map(|_| ())
    }

    /// Reads frames that wait, as many as there are rooms at most, and at most a batch. That there are fewer does not say
    /// that no more wait: that is the error `WouldBlock`.
    pub fn receive(&self, rooms: &mut [Room], seen: &mut Vec<Seen>) -> io::Result<()> {
        let count = rooms.len().min(BATCH);
        let mut froms = [Address::default(); BATCH];
        let mut controls = [Control {
            bytes: [0; CONTROL],
        }; BATCH];
        let mut parts = [Part {
            start: ptr::null_mut(),
            length: 0,
        }; BATCH];
        for (part, room) in parts.iter_mut().zip(rooms) {
            let room = &mut room[VLAN_TAG..];
            *part = Part {
                start: room.as_mut_ptr(),
                length: room.len(),
            };
        }
        let mut lent = froms.iter_mut().zip(&mut parts).zip(&mut controls);
        let mut messages: [Message; BATCH] = std::array::from_fn(|_| {
            let lent = lent.next();
            let ((name, parts), control) = lent.expect("each array has a batch");
            let head = Head {
                name,
                name_length: size_of::<Address>() as c_uint,
                parts,
                parts_length: 1,
                control,
                control_length: CONTROL,
                flags: 0,
            };
            Message { head, received: 0 }
        });
        let at = messages.as_mut_ptr();
        // SAFETY: `count` messages are there, and as many parts lead to rooms. Their pointers lead to the arrays above and to
        // the rooms, each with its length beside it. They belong to this call until it ends. They hold integers only, so
        // whatever the kernel writes there is a value. No limit is given, which the first flag makes needless. The second
        // one asks for the whole length of a frame that was cut.
        let got = checked(unsafe {
            recvmmsg(
                self.file.as_raw_fd(),
                at,
                count as c_uint,
                MSG_DONTWAIT | MSG_TRUNC,
                ptr::null_mut(),
            )
        })?;
        for i in 0..got as usize {
            let beside = &controls[i].bytes[..messages[i].head.control_length.min(CONTROL)];
            let (stamp, vlan) = read_control(beside);
            let whole = messages[i].received as usize;
            seen.push(Seen {
                length: whole.min(FRAME_MOST),
                whole,
                outgoing: froms[i].packet == PACKET_OUTGOING,
                vlan,
                stamp,
            });
        }
        Ok(())
    }

    /// Frames that the kernel dropped for want of room since it was last asked.
    pub fn dropped(&self) -> io::Result<u32> {
        let none = Statistics::default();
        Ok(self.get(SOL_PACKET, PACKET_STATISTICS, none)?.dropped)
    }
}

/// Does a socket need a right that the program has not?
pub fn is_without_right(error: &io::Error) -> bool {
    error.raw_os_error() == Some(EPERM)
}

/// Is this what a socket says whose interface goes down or is removed?
pub fn is_down(error: &io::Error) -> bool {
    error.raw_os_error() == Some(ENETDOWN)
}

/// The stamp and the VLAN tag that stand beside a frame.
fn read_control(mut rest: &[u8]) -> (Option<i64>, Option<[u8; VLAN_TAG]>) {
    let (mut stamp, mut vlan) = (None, None);
    while rest.len() >= CONTROL_HEAD {
        let length = number(rest, 0, size_of::<usize>()) as usize;
        let (level, kind) = (number(rest, 8, 4) as c_int, number(rest, 12, 4) as c_int);
        let data = match rest.get(CONTROL_HEAD..length) {
            Some(data) => data,
            None => break,
        };
        match (level, kind, data.len()) {
            (SOL_SOCKET, SO_TIMESTAMPING, 48..) => {
                // Three stamps; the first is the kernel's own. Seconds and nanoseconds zero: it has none.
                let real = number(data, 0, 8) as i64 * 1_000_000_000 + number(data, 8, 8) as i64;
                stamp = (real != 0).then_some(real);
            }
            (SOL_PACKET, PACKET_AUXDATA, 20..) => {
                let status = number(data, 0, 4) as u32;
                let known = status & TP_STATUS_VLAN_TPID_VALID != 0;
                let (tci, tpid) = (number(data, 16, 2) as u16, number(data, 18, 2) as u16);
                let mark = if known { tpid } else { VLAN_MARK };
                let (mark, tci) = (mark.to_be_bytes(), tci.to_be_bytes());
                vlan = (status & TP_STATUS_VLAN_VALID != 0)
                    .then(|| [mark[0], mark[1], tci[0], tci[1]]);
            }
            _ => {}
        }
        rest = rest.get((length + 7) & !7..).unwrap_or_default();
    }
    (stamp, vlan)
}

/// So many bytes as a number of this machine, whose low byte is the first.
pub fn number(bytes: &[u8], at: usize, length: usize) -> u64 {
    let part = &bytes[at..at + length];
    part.iter().rev().fold(0, |n, b| n << 8 | u64::from(*b))
}

/// What a signal asks for.
#[derive(Clone, Copy, Debug, PartialEq, Eq)]
pub enum Signal {
    End,
    Say,
}

/// The signals that are asked for instead of being met.
pub struct Signals {
    file: File,
}

impl Signals {
    /// SIGINT, SIGTERM and SIGUSR1 wait from here on until they are read.
    pub fn hold() -> io::Result<Signals> {
        let mut set = SignalSet([0; 16]);
        set.0[0] = [SIGINT, SIGTERM, SIGUSR1]
            .iter()
            .fold(0, |bits, signal| bits | 1 << (signal - 1));
        // SAFETY: the set is there until the call ends; the former one is not asked for.
        checked(unsafe { sigprocmask(SIG_BLOCK, &set, ptr::null_mut()) })?;
        // SAFETY: the set is there until the call ends, and -1 asks for a new file.
        let number = checked(unsafe { signalfd(-1, &set, SFD_CLOEXEC) })?;
        // SAFETY: the number is a file that was opened just now, and nothing else has it.
        let file = unsafe { OwnedFd::from_raw_fd(number) };
        Ok(Signals { file: file.into() })
    }

    /// The first of the signals that came. There is one.
    pub fn next(&mut self) -> io::Result<Signal> {
        // `struct signalfd_siginfo`, with the signal's number first.
        let mut about = [0; 128];
        self.file.read_exact(&mut about)?;
        Ok(match number(&about, 0, 4) as u32 {
            SIGUSR1 => Signal::Say,
            _ => Signal::End,
        })
    }
}

/// What a wait ended with.
#[derive(Default)]
pub struct Came {
    pub signal: bool,
    /// On a socket an error waits.
    pub errors: [bool; NETWORKS],
}

/// Waits until a frame is there, or a signal, or standard output takes something, or for so long. What is `None` is not waited
/// for.
pub fn wait(
    sockets: [Option<&Socket>; NETWORKS],
    signals: &Signals,
    output: Option<&Output>,
    limit: Time,
) -> io::Result<Came> {
    let socket = |network: usize| sockets[network].map_or(-1, |socket| socket.file.as_raw_fd());
    let output = output.map_or(-1, |output| output.file.as_raw_fd());
    let mut files = [
        (socket(0), POLLIN),
        (socket(1), POLLIN),
        (signals.file.as_raw_fd(), POLLIN),
        (output, POLLOUT),
    ]
    .map(|(file, events)| Poll {
        file,
        events,
        came: 0,
    });
    match poll(&mut files, limit) {
        Err(e) if e.kind() == io::ErrorKind::Interrupted => Ok(Came::default()),
        Err(e) => Err(e),
        Ok(()) => Ok(Came {
            signal: files[NETWORKS].came != 0,
            errors: [0, 1].map(|network: usize| files[network].came & POLLERR != 0),
        }),
    }
}

fn poll(files: &mut [Poll], limit: Time) -> io::Result<()> {
    let limit = Pause {
        seconds: limit / 1_000_000_000,
        nanoseconds: limit % 1_000_000_000,
    };
    // SAFETY: the files are there in the length that is given and belong to this call until it ends; `came` takes any value.
    // The limit is there as long, and the signals stay as they are.
    checked(unsafe {
        ppoll(
            files.as_mut_ptr(),
            files.len() as c_ulong,
            &limit,
            ptr::null(),
        )
    })?;
    Ok(())
}

/// A pipe or terminal opened once more, so that no write to it waits: it then has flags of its own, and does not change for others
/// who use it too. None: it is something else, or that is not allowed.
fn without_waiting(number: c_int) -> Option<File> {
    let name = format!("/proc/self/fd/{number}");
    let kind = fs::metadata(&name).ok()?.file_type();
    if !kind.is_fifo() && !kind.is_char_device() {
        return None;
    }
    let mut open = OpenOptions::new();
    let open = open.write(true).custom_flags(O_NONBLOCK | O_NOCTTY);
    open.open(name).ok()
}

/// Standard error, where it can be opened once more.
static ERRORS: Mutex<Option<File>> = Mutex::new(None);

/// Puts a line onto standard error in one write, without a wait. Answers whether all of it was taken. A terminal that has some room may
/// not have enough: only a file that does not block makes sure of it. Where there is none, a pipe that has room takes a line.
pub fn put_error_line(line: &[u8]) -> bool {
    let mut own = match ERRORS.lock() {
        Ok(own) => own,
        Err(_) => return false,
    };
    if own.is_none() {
        *own = without_waiting(STANDARD_ERROR);
    }
    let put = match own.as_mut() {
        Some(file) => file.write(line),
        None if !error_is_ready() => return false,
        None => match send_now(STANDARD_ERROR, line) {
            Err(e) if e.raw_os_error() == Some(ENOTSOCK) => io::stderr().write(line),
            put => put,
        },
    };
    matches!(put, Ok(length) if length == line.len())
}

/// Gives bytes to a socket, as many as it takes without a wait.
fn send_now(socket: c_int, bytes: &[u8]) -> io::Result<usize> {
    let flags = MSG_DONTWAIT | MSG_NOSIGNAL;
    // SAFETY: the bytes are there in the length that is given until the call ends, which only reads them.
    let sent = unsafe { send(socket, bytes.as_ptr(), bytes.len(), flags) };
    match sent {
        0.. => Ok(sent as usize),
        _ => Err(io::Error::last_os_error()),
    }
}

/// Does standard error take something now?
fn error_is_ready() -> bool {
    let mut files = [Poll {
        file: STANDARD_ERROR,
        events: POLLOUT,
        came: 0,
    }];
    poll(&mut files, 0).is_ok() && files[0].came & POLLOUT != 0
}

/// The program was started with standard output closed.
static OUTPUT_IS_CLOSED: AtomicBool = AtomicBool::new(false);

/// The standard library puts /dev/null where a standard file is closed, before `main`. So it is looked at before that.
#[used]
#[link_section = ".init_array"]
static LOOK_FIRST: extern "C" fn() = look_at_output;

extern "C" fn look_at_output() {
    // SAFETY: two numbers.
    let flags = unsafe { fcntl(STANDARD_OUTPUT, F_GETFD) };
    OUTPUT_IS_CLOSED.store(flags < 0, Ordering::Relaxed);
}

pub fn output_is_closed() -> bool {
    OUTPUT_IS_CLOSED.load(Ordering::Relaxed)
}

/// Standard output, which never holds this program up.
pub struct Output {
    file: File,
    is_socket: bool,
    /// Its flags, where they had to be changed and are put back at the end.
    flags: Option<c_int>,
}

impl Output {
    pub fn open() -> io::Result<Output> {
        let file: File = io::stdout().as_fd().try_clone_to_owned()?.into();
        let kind = file.metadata()?.file_type();
        let is_socket = kind.is_socket();
        if !kind.is_fifo() && !kind.is_char_device() {
            return Ok(Output {
                file,
                is_socket,
                flags: None,
            });
        }
        if let Some(file) = without_waiting(STANDARD_OUTPUT) {
            return Ok(Output {
                file,
                is_socket,
                flags: None,
            });
        }
        // SAFETY: two numbers.
        let flags = checked(unsafe { fcntl(STANDARD_OUTPUT, F_GETFL) })?;
        set_flags(flags | O_NONBLOCK)?;
        Ok(Output {
            file,
            is_socket,
            flags: Some(flags),
        })
    }
}

fn set_flags(flags: c_int) -> io::Result<()> {
    // SAFETY: three numbers.
    checked(unsafe { fcntl(STANDARD_OUTPUT, F_SETFL, flags) })?;
    Ok(())
}

impl Write for Output {
    fn write(&mut self, bytes: &[u8]) -> io::Result<usize> {
        if !self.is_socket {
            return self.file.write(bytes);
        }
        send_now(self.file.as_raw_fd(), bytes)
    }

    fn flush(&mut self) -> io::Result<()> {
        Ok(())
    }
}

impl Drop for Output {
    fn drop(&mut self) {
        // Nothing is left to do where that fails.
        let _ = self.flags.map(set_flags);
    }
}

/// Locks a file for as long as it is open. Answers whether another has it.
pub fn is_locked_by_another(file: &File) -> bool {
    // SAFETY: two numbers.
    let locked = checked(unsafe { flock(file.as_raw_fd(), LOCK_EX | LOCK_NB) });
    locked.map_or_else(|e| e.kind() == io::ErrorKind::WouldBlock, |_| false)
}

/// The time of day, as ISO 8601 has it, with milliseconds and the offset of this place.
pub fn local_time() -> String {
    let since = SystemTime::now().duration_since(UNIX_EPOCH);
    let since = since.unwrap_or_default();
    let seconds = since.as_secs() as c_long;
    let mut at = Calendar {
        second: 0,
        minute: 0,
        hour: 0,
        day: 1,
        month: 0,
        year: 70,
        day_of_week: 0,
        day_of_year: 0,
        summer: 0,
        offset: 0,
        zone: ptr::null(),
    };
    // SAFETY: both are there until the call ends. The name of the zone, which it points to, is not used. Where the call fails
    // the time is the begin of 1970.
    unsafe { localtime_r(&seconds, &mut at) };
    time_of_day(&at, since.subsec_millis())
}

fn time_of_day(at: &Calendar, milliseconds: u32) -> String {
    let (sign, offset) = match at.offset {
        east @ 0.. => ('+', east / 60),
        west => ('-', -west / 60),
    };
    format!(
        "{:04}-{:02}-{:02}T{:02}:{:02}:{:02}.{milliseconds:03}{sign}{:02}:{:02}",
        1900 + at.year,
        at.month + 1,
        at.day,
        at.hour,
        at.minute,
        at.second,
        offset / 60,
        offset % 60
    )
}

#[cfg(test)]
mod tests {
    use super::*;

    fn record(level: c_int, kind: c_int, data: &[u8]) -> Vec<u8> {
        let mut bytes = (CONTROL_HEAD + data.len()).to_ne_bytes().to_vec();
        bytes.extend_from_slice(&level.to_ne_bytes());
        bytes.extend_from_slice(&kind.to_ne_bytes());
        bytes.extend_from_slice(data);
        bytes.resize((bytes.len() + 7) & !7, 0);
        bytes
    }

    fn stamped(seconds: i64, nanoseconds: i64) -> Vec<u8> {
        let mut data = seconds.to_ne_bytes().to_vec();
        data.extend_from_slice(&nanoseconds.to_ne_bytes());
        data.resize(48, 0);
        record(SOL_SOCKET, SO_TIMESTAMPING, &data)
    }

    fn tagged(status: u32, tci: u16, tpid: u16) -> Vec<u8> {
        let mut data = status.to_ne_bytes().to_vec();
        data.resize(16, 0);
        data.extend_from_slice(&tci.to_ne_bytes());
        data.extend_from_slice(&tpid.to_ne_bytes());
        record(SOL_PACKET, PACKET_AUXDATA, &data)
    }

    #[test]
    fn times_of_day() {
        let mut at = Calendar {
            second: 5,
            minute: 4,
            hour: 15,
            day: 7,
            month: 10,
            year: 126,
            day_of_week: 0,
            day_of_year: 0,
            summer: 0,
            offset: 3600,
            zone: ptr::null(),
        };
        for (offset, behind) in [
            (3600, "+01:00"),
            (0, "+00:00"),
            (-12_600, "-03:30"),
            (20_700, "+05:45"),
        ] {
            at.offset = offset;
            let expected = format!("2026-11-07T15:04:05.023{behind}");
            assert_eq!(time_of_day(&at, 23), expected);
        }
        assert_eq!(local_time().len(), "2026-11-17T15:04:05.123+01:00".len());
    }

    #[test]
    fn stamp_and_tag_in_either_order() {
        let both = TP_STATUS_VLAN_VALID | TP_STATUS_VLAN_TPID_VALID;
        let (stamp, tag) = (stamped(3, 7), tagged(both, 0xE064, 0x88A8));
        let expected = (Some(3_000_000_007), Some([0x88, 0xA8, 0xE0, 0x64]));
        for order in [[&stamp, &tag], [&tag, &stamp]] {
            let bytes = [order[0].as_slice(), order[1]].concat();
            assert!(bytes.len() == CONTROL);
            assert_eq!(read_control(&bytes), expected);
            // However it is cut, it is no panic.
            for cut in 0..bytes.len() {
                read_control(&bytes[..cut]);
            }
        }
    }

    /// Priority, the bit behind it and VLAN id: all of what the kernel says. Zeros are a tag if it says so.
    #[test]
    fn every_bit_of_a_tag() {
        for tci in 0..=u16::MAX {
            let bits = tci.to_be_bytes();
            let tag = Some([0x81, 0x00, bits[0], bits[1]]);
            let both = TP_STATUS_VLAN_VALID | TP_STATUS_VLAN_TPID_VALID;
            for (status, tpid) in [(both, VLAN_MARK), (TP_STATUS_VLAN_VALID, 0)] {
                assert_eq!(read_control(&tagged(status, tci, tpid)), (None, tag));
            }
        }
    }

    #[test]
    fn what_is_not_there() {
        assert_eq!(read_control(&[]), (None, None));
        assert_eq!(read_control(&stamped(0, 0)), (None, None));
        assert_eq!(read_control(&tagged(0, 100, VLAN_MARK)), (None, None));
        let old = tagged(TP_STATUS_VLAN_VALID, 100, 0);
        assert_eq!(read_control(&old), (None, Some([0x81, 0, 0, 100])));
        // A length below its own head, or of nearly all memory.
        for length in [0, 8, 15, usize::MAX, usize::MAX - 8] {
            let mut bytes = stamped(1, 1);
            bytes[..8].copy_from_slice(&length.to_ne_bytes());
            assert_eq!(read_control(&bytes), (None, None));
        }
    }
}
