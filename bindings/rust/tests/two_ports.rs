//! Two ports share one receiver: two threads, each with all frames of one network, and a lock around the receiver. Every
//! increment must be handed up exactly once, whichever way the threads run.
//!
//! A frame whose number is L or more behind the anchor is a rogue (document 01, "Decisions"): a network must not be further
//! ahead than L - 1. This is a premise about the networks and not about the lock, so the threads keep it: each may be so many
//! numbers ahead of the other and waits then. How many changes on the way, from 1, where both threads have the same number at
//! the same time, to L - 1. Within this lead they run as they happen to.

use nippitsun::{tag, Receiver, Settings, Stream, Verdict};
use std::sync::atomic::{AtomicU8, AtomicUsize, Ordering};
use std::sync::Mutex;
use std::thread;

const NUMBERS: usize = 1_000_000;
const WINDOW: usize = 64;

/// How far ahead a thread may be that is about to send this index.
fn lead(index: usize) -> usize {
    [1, 2, 8, WINDOW - 1][index / 1000 % 4]
}

/// What came out of a run.
#[derive(Debug)]
struct Outcome {
    /// Indices that were handed up more than once.
    doubled: usize,
    /// Indices that were never handed up.
    missing: usize,
    /// Numbers that network 0 had first, and network 1.
    first: [usize; 2],
}

/// Two threads give all indices in order to `port(network, index)`, which answers whether it handed the index up.
fn run(port: impl Fn(u8, usize) -> bool + Sync) -> Outcome {
    let up: Vec<AtomicU8> = (0..NUMBERS).map(|_| AtomicU8::new(0)).collect();
    // How many indices each thread has sent.
    let sent = [AtomicUsize::new(0), AtomicUsize::new(0)];
    let first = [AtomicUsize::new(0), AtomicUsize::new(0)];
    thread::scope(|threads| {
        for network in 0..2 {
            let (port, up, sent, first) = (&port, &up, &sent, &first);
            threads.spawn(move || {
                for (index, up) in up.iter().enumerate() {
                    while index >= sent[1 - network].load(Ordering::Acquire) + lead(index) {
                        thread::yield_now();
                    }
                    if port(network as u8, index) {
                        up.fetch_add(1, Ordering::Relaxed);
                        first[network].fetch_add(1, Ordering::Relaxed);
                    }
                    sent[network].store(index + 1, Ordering::Release);
                }
            });
        }
    });
    let times: Vec<u8> = up.into_iter().map(AtomicU8::into_inner).collect();
    Outcome {
        doubled: times.iter().filter(|&&n| n > 1).count(),
        missing: times.iter().filter(|&&n| n == 0).count(),
        first: first.map(AtomicUsize::into_inner),
    }
}

#[test]
fn one_call_under_one_lock_hands_each_up_once() {
    let destination = [2, 0, 0, 0, 0, 1];
    let mut receiver = Receiver::new(1);
    let slot = receiver
        .open(Settings {
            destination,
            vlan: 0,
            rule: Stream::VECTOR_RULE,
            window: WINDOW as u16,
            time: 1,
        })
        .unwrap();
    let receiver = Mutex::new(receiver);
    let outcome = run(|network, index| {
        let mut bare = [0; 64];
        bare[..6].copy_from_slice(&destination);
        bare[56..].copy_from_slice(&index.to_le_bytes());
        let mut frame = [0; 70];
        tag::put(&bare, index as u16, &mut frame).unwrap();
        let mut out = [0; 64];
        let arrival = receiver
            .lock()
            .unwrap()
            .arrival(network, &frame, &mut out)
            .unwrap();
        match arrival.verdict {
            Verdict::HandedUp { length } => {
                assert_eq!((length, out), (64, bare));
                true
            }
            Verdict::Duplicate => false,
            Verdict::Rogue => panic!("index {} is outside the window", index),
        }
    });
    println!("one lock region: {:?}", outcome);
    assert_eq!((outcome.doubled, outcome.missing), (0, 0));
    // The threads did run side by side: each was often the first.
    assert!(outcome.first.iter().all(|&n| n > NUMBERS / 1000));
    let receiver = receiver.into_inner().unwrap();
    let counts = receiver.counts(slot).unwrap();
    let all = NUMBERS as u64;
    assert_eq!((counts.arrivals0, counts.arrivals1), (all, all));
    assert_eq!((counts.passed, counts.discarded), (all, all));
    assert_eq!((counts.rogue, counts.disorder), (0, 0));
    // Nothing was missing, not at the start either.
    assert_eq!(counts.lost, 0);
}

/// A receiver with the vector rule whose asking and marking are two calls.
struct AskThenMark {
    highest: Option<usize>,
    history: u64,
}

impl AskThenMark {
    fn is_new(&self, index: usize) -> bool {
        match self.highest {
            Some(highest) if index <= highest => self.history >> (highest - index) & 1 == 0,
            _ => true,
        }
    }

    fn mark(&mut self, index: usize) {
        match self.highest {
            Some(highest) if index <= highest => self.history |= 1 << (highest - index),
            Some(highest) => {
                self.history = self
                    .history
                    .checked_shl((index - highest) as u32)
                    .unwrap_or(0)
                    | 1;
                self.highest = Some(index);
            }
            None => {
                self.history = 1;
                self.highest = Some(index);
            }
        }
    }
}

/// The error that the call rules out: between asking and marking the other port asks for the twin. The lock alone does not
/// help, because it is let go between.
#[test]
fn asking_first_and_marking_afterwards_doubles_increments() {
    let receiver = Mutex::new(AskThenMark {
        highest: None,
        history: 0,
    });
    let outcome = run(|_, index| {
        let new = receiver.lock().unwrap().is_new(index);
        // On a machine with one processor the threads change places here, as they may anywhere.
        if index % 64 == 0 {
            thread::yield_now();
        }
        if new {
            receiver.lock().unwrap().mark(index);
        }
        new
    });
    println!("two lock regions: {:?}", outcome);
    assert_eq!(outcome.missing, 0);
    assert!(outcome.doubled > 0, "no increment was doubled");
}
