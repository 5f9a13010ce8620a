//! Random turns from PRP and to PRP: the archive's calls and the plain ones. Answers and every byte of the output must be equal.
//! Each answer of both calls must have come up, both networks with both kinds of trailer, the longest frames and those that are
//! too long by one, and the second 4 of a turn to PRP.
use crate::compare::{all_seen, frame, wrong, Dice};
use crate::compare_sends::output;
use crate::record::PrpAnswer;
use crate::{plain, proved};

/// The byte for a kind of trailer, and the trailer's width.
fn setting(dice: &mut Dice) -> (u8, usize) {
    match dice.below(4) {
        0 | 1 => (0, 4),
        2 => (1, 6),
        _ => (1 + dice.below(255) as u8, 6),
    }
}

fn is_at(f: &[u8], at: usize, bytes: [u8; 2]) -> bool {
    f.get(at..at + 2) == Some(&bytes)
}

/// A random frame with a trailer of this width behind it, most often one that fits. Most often it has no tag. Rarely it is shorter
/// than a trailer.
fn line(dice: &mut Dice, pool: &[u8], width: usize) -> Vec<u8> {
    let mut f = frame(dice, pool);
    let at = if is_at(&f, 12, [0x81, 0x00]) { 16 } else { 12 };
    if is_at(&f, at, [0xF1, 0xC1]) && !dice.one_in(6) {
        f[at] = 0x08;
    }
    let size = match dice.below(16) {
        0 => f.len() + width - 1,
        1 => f.len() + width + 1,
        2 => f.len(),
        _ => f.len() + width,
    }
    .saturating_sub(at + 2) as u16;
    let lan = match dice.below(8) {
        0 => dice.below(16) as u16,
        n => 0xA + n as u16 % 2,
    };
    let mut trailer = [dice.next() as u16, lan << 12 | size & 0xFFF, 0x88FB]
        .map(u16::to_be_bytes)
        .concat();
    // A bit of LAN, size or 88FB.
    if dice.one_in(12) {
        trailer[2 + dice.below(4) as usize] ^= 1 << dice.below(8);
    }
    f.extend_from_slice(&trailer[..width]);
    if dice.one_in(60) {
        f.truncate(dice.below(8) as usize);
    }
    f
}

/// Both calls on the same output. Tells their answer if all is equal.
fn both(
    out: Vec<u8>,
    x: impl Fn(&mut [u8]) -> PrpAnswer,
    y: impl Fn(&mut [u8]) -> PrpAnswer,
) -> Option<PrpAnswer> {
    let (mut a, mut b) = (out.clone(), out);
    let (x, y) = (x(&mut a), y(&mut b));
    (x == y && a == b).then_some(x)
}

pub fn turns(cases: u64) -> Result<u64, String> {
    let mut dice = Dice::new();
    let pool: Vec<u8> = (0..10_000).map(|_| dice.next() as u8).collect();
    let mut refused = [[0u64; 256]; 2];
    // By the width of the trailer: the network, and how much shorter the longest frame is than this one.
    let (mut networks, mut longest) = ([[0u64; 2]; 7], [[0u64; 2]; 7]);
    let mut second_short = [0u64];
    for case in 0..cases {
        let (kind, width) = setting(&mut dice);
        let f = line(&mut dice, &pool, width);
        let out = output(&mut dice, &pool, (f.len() + 6).saturating_sub(width));
        let a = both(
            out,
            |out| proved::from_prp(&f, kind, out),
            |out| plain::from_prp(&f, kind, out),
        )
        .ok_or_else(|| wrong("a turn from PRP", case))?;
        refused[0][a.refusal as usize] += 1;
        if a.refusal == 0 {
            networks[width][a.network as usize] += 1;
        }
        match (a.refusal, (f.len() + 6).checked_sub(2000 + width)) {
            (0, Some(0)) => longest[width][0] += 1,
            (_, Some(1)) => longest[width][1] += 1,
            _ => {}
        }

        let (kind, width) = setting(&mut dice);
        let f = frame(&mut dice, &pool);
        let network = match dice.below(10) {
            0 => dice.next() as u8,
            n => (n % 2) as u8,
        };
        let out = output(&mut dice, &pool, (f.len() + width).saturating_sub(6));
        let a = both(
            out,
            |out| proved::to_prp(&f, network, kind, out),
            |out| plain::to_prp(&f, network, kind, out),
        )
        .ok_or_else(|| wrong("a turn to PRP", case))?;
        refused[1][a.refusal as usize] += 1;
        second_short[0] += (a.refusal == 4 && f.len() >= 20 && is_at(&f, 12, [0xF1, 0xC1])) as u64;
    }
    all_seen("a turn from PRP", &refused[0], &[0, 3, 4, 8, 13, 16])?;
    all_seen("a turn to PRP", &refused[1], &[0, 2, 3, 4, 5, 8])?;
    all_seen("the second 4 of a turn to PRP", &second_short, &[0])?;
    for width in [4, 6] {
        all_seen("a network of a turn from PRP", &networks[width], &[0, 1])?;
        all_seen("the longest PRP frame", &longest[width], &[0, 1])?;
    }
    Ok(2 * cases)
}
