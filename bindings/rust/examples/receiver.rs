//! A sender and a controller's receiver in short: one stream, a command that is sent on both networks and comes on both, and a
//! tick.

use nippitsun::{Receiver, Refusal, Sender, Settings, Stream, Verdict};

fn receive(receiver: &mut Receiver, network: u8, frame: &[u8]) {
    let mut out = [0; Stream::FRAME_MOST];
    match receiver.arrival(network, frame, &mut out) {
        Ok(a) => match a.verdict {
            // Carry out the command in out[..length], in the order of its priority. No VLAN tag is priority 0 here.
            Verdict::HandedUp { length } => {
                println!(
                    "network {network}: number {} handed up, priority {}, {length} bytes",
                    a.number,
                    a.priority.unwrap_or_default()
                )
            }
            Verdict::Duplicate => println!("network {network}: number {} is a duplicate", a.number),
            Verdict::Rogue => println!("network {network}: number {} is a rogue", a.number),
        },
        Err(refusal) => println!("network {network}: refused ({})", refusal.number()),
    }
}

fn main() -> Result<(), Refusal> {
    let mut receiver = Receiver::new(8);
    // VLAN 7, the vector rule, a window of 4 numbers, reset after 3 ticks with nothing handed up.
    let slot = receiver.open(Settings {
        destination: [2, 0, 0, 0, 0, 1],
        vlan: 7,
        rule: Stream::VECTOR_RULE,
        window: 4,
        time: 3,
    })?;

    // The command as an ordinary frame: destination, source, VLAN tag (priority 5, VLAN 7), type, and what to do.
    let frame = [
        2, 0, 0, 0, 0, 1, 2, 0, 0, 0, 0, 2, 0x81, 0x00, 0xA0, 7, 0x08, 0x00, 0xAB,
    ];
    // What goes out on network 0 and on network 1.
    let (mut out0, mut out1) = ([0; Stream::FRAME_MOST], [0; Stream::FRAME_MOST]);
    let mut sender = Sender::new();
    let sent = sender.send(&frame, &mut out0, &mut out1)?;
    println!(
        "number {} sent, {} bytes on each network",
        sent.number, sent.length
    );

    receive(&mut receiver, 0, &out0[..sent.length]);
    receive(&mut receiver, 1, &out1[..sent.length]);
    // Cut short on its way.
    receive(&mut receiver, 1, &out1[..19]);

    // Once in each tick period, whether frames come or not.
    let ticked = receiver.tick()?;
    println!(
        "tick: {} streams reset, {} records damaged",
        ticked.resets, ticked.damaged
    );

    if let Some(counts) = receiver.counts(slot) {
        println!(
            "handed up {}, duplicates {}",
            counts.passed, counts.discarded
        );
    }
    Ok(())
}
