//! Random batches on random tables with indexes: the archive's call, the plain one, and single calls in turn, of the archive and
//! of the second program, which also says whether an index agrees. Answers, every record field by field, and every output byte
//! must be equal, and each answer must have come up.
use crate::cells_batches::in_turn;
use crate::compare::{all_seen, wrong, Dice};
use crate::compare_arrivals::{all_told, answer_of, frame, stir, tables, tell, Tables, Told};
use crate::record::{ArrivalAnswer, BatchAnswer, FRAMES_MOST, PLACES};
use crate::{plain, proved};

/// How many batches one table sees.
const LIFE: u64 = 10;

/// A batch's answer, made of single calls' ones.
fn single<T>(
    arrival: impl Fn(&mut [T], u8, &[u8], &mut [u8]) -> ArrivalAnswer,
    table: &mut [T],
    network: u8,
    count: usize,
    frames: &[u8],
    out: &mut [u8],
) -> BatchAnswer {
    let mut answers = [ArrivalAnswer::default(); FRAMES_MOST];
    let mut places = answers.iter_mut();
    let tell = |a| *places.next().unwrap() = a;
    BatchAnswer {
        frames: in_turn(arrival, table, network, count, frames, out, tell),
        answers,
        refusal: 0,
    }
}

/// Frames, each behind its length, and how many. Rarely the last is cut, or something stands behind it.
fn packed(dice: &mut Dice, pool: &[u8], t: &Tables) -> (usize, Vec<u8>) {
    let count = match dice.below(8) {
        0 => FRAMES_MOST,
        1 => 33 + dice.below(3) as usize,
        _ => dice.below(33) as usize,
    };
    let mut all = Vec::new();
    for _ in 0..count {
        let f = frame(dice, pool, t);
        all.extend_from_slice(&(f.len() as u16).to_be_bytes());
        all.extend_from_slice(&f);
    }
    match dice.below(12) {
        0 => all.truncate(all.len().saturating_sub(1 + dice.below(70) as usize)),
        1 => all.extend_from_slice(&pool[..dice.below(80) as usize]),
        _ => {}
    }
    (count, all)
}

/// The rebuilt index, the same by both programs. Most often it stays so; else one place or all of them hold something else, two
/// neighbours change their places, or there is one place more or fewer.
fn index(dice: &mut Dice, t: &Tables, case: u64) -> Result<Vec<u8>, String> {
    let mut index: Vec<u8> = (0..PLACES).map(|_| dice.next() as u8).collect();
    let mut of_second = index.clone();
    let told = second::rebuild(&t.second, &mut of_second).map_or_else(|why| why.number(), |_| 0);
    if told != proved::rebuild(&t.proved, &mut index) || index != of_second {
        return Err(wrong("a rebuild", case));
    }
    let place = dice.below(PLACES as u64) as usize;
    let name = dice.below(t.second.len() as u64 + 3) as u8;
    match dice.below(24) {
        0 | 1 => index[place] = name,
        2 => index.fill(name),
        3 => index.push(0),
        4 => index.truncate(PLACES - 1),
        5..=8 => index.swap(place, (place + 1) % PLACES),
        _ => {}
    }
    Ok(index)
}

/// The table, the index, the network or the lengths refuse the whole call.
fn refused(t: &[second::Stream], index: &[u8], network: u8, count: usize, mut frames: &[u8]) -> u8 {
    if t.len() > 64 {
        return 1;
    }
    if !second::agrees(t, index) {
        return 18;
    }
    if network > 1 {
        return 2;
    }
    for n in 0..count {
        let end = match frames {
            [high, low, ..] => 2 + *high as usize * 256 + *low as usize,
            _ => return 15,
        };
        if n == FRAMES_MOST || end > frames.len() {
            return 15;
        }
        frames = &frames[end..];
    }
    0
}

pub fn batches(cases: u64) -> Result<u64, String> {
    let mut dice = Dice::new();
    let pool: Vec<u8> = (0..80_000).map(|_| dice.next() as u8).collect();
    let (mut calls, mut refusals, mut verdicts) = ([0u64; 256], [0u64; 256], [0u64; 256]);
    let mut passed = [0u64];
    let mut told = Told::default();
    let mut t = tables(&mut dice, 0)?;
    for case in 0..cases {
        if case % LIFE == 0 {
            t = tables(&mut dice, case)?;
        }
        for _ in 0..dice.below(4) {
            stir(&mut dice, &mut t);
        }
        let index = index(&mut dice, &t, case)?;
        let (count, frames) = packed(&mut dice, &pool, &t);
        let network = if dice.one_in(30) {
            dice.next() as u8
        } else {
            dice.below(2) as u8
        };
        // Most often all that is handed up has room.
        let room = match dice.below(12) {
            0 => dice.below(40) as usize,
            1..=3 => dice.below(1 + frames.len() as u64) as usize,
            _ => frames.len(),
        };
        let from = dice.below((pool.len() - room) as u64) as usize;
        let mut outs = [(); 4].map(|_| pool[from..from + room].to_vec());
        let [a, b, c, d] = &mut outs;
        let mut alone = t.proved.clone();
        let x = proved::batch(&mut t.proved, &index, network, count, &frames, a);
        let y = plain::batch(&mut t.plain, &index, network, count, &frames, b);
        let none = BatchAnswer {
            refusal: refused(&t.second, &index, network, count, &frames),
            ..BatchAnswer::default()
        };
        let (mut z, mut w) = (none, none);
        if none.refusal == 0 {
            z = single(proved::arrival, &mut alone, network, count, &frames, c);
            let arrival = |t: &mut [_], n, f: &_, o: &mut _| answer_of(plain::arrival(t, n, f, o));
            w = single(arrival, &mut t.second, network, count, &frames, d);
        }
        let same = x == y && x == z && x == w && t.equal() && t.proved == alone;
        if !same || outs.iter().any(|o| *o != outs[0]) {
            return Err(wrong("a batch", case));
        }
        calls[x.refusal as usize] += 1;
        for e in x.answers {
            refusals[e.refusal as usize] += 1;
            verdicts[e.verdict as usize] += 1;
            passed[0] += (e.verdict != 0 && t.passes(e.slot)) as u64;
            tell(&mut told, &e);
        }
    }
    all_seen("a batch's refusal", &calls, &[0, 1, 2, 15, 18])?;
    all_seen(
        "a refusal in a batch",
        &refusals,
        &[0, 3, 4, 5, 6, 7, 8, 14],
    )?;
    all_seen("a verdict in a batch", &verdicts, &[0, 1, 2, 3])?;
    all_seen("a virtual link passed over in a batch", &passed, &[0])?;
    all_told("a priority in a batch", &told)?;
    Ok(cases)
}
