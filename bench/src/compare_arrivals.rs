//! Random arrivals on random tables, which have virtual links and other streams: the archive's calls, the second program's and
//! the plain ones in place. Answers, every record field by field, and every output byte must be equal, and each refusal and
//! verdict must have come up.
use crate::compare::{
    all_seen, early, history, individual, link_number, mark_behind, number, window, wrong, Dice,
};
use crate::record::{
    ArrivalAnswer, Counts, SlotAnswer, State, Stream, TickAnswer, DUPLICATE, HANDED_UP, PLACES,
    ROGUE,
};
use crate::{plain, proved};
use second::{Arrival, Refusal, Settings, Verdict};

/// The second program's record as the archive has it. Every one has such a form, so records are compared in this form.
/// (`compare` has the like; naming it here would switch the second program's wrong variants on, which cost time.)
pub fn record_of(s: &second::Stream) -> Stream {
    let d = s.destination;
    Stream {
        dest: u64::from_be_bytes([0, 0, d[0], d[1], d[2], d[3], d[4], d[5]]),
        vlan: s.vlan,
        window: s.window,
        time: s.reset_time,
        rule: s.rule,
        used: s.in_use,
        state: State {
            history: s.history,
            anchor: s.anchor,
            remaining: s.remaining,
            early: s.early,
            any: s.take_any,
        },
        counts: Counts {
            arrivals0: s.arrivals[0],
            arrivals1: s.arrivals[1],
            passed: s.passed,
            discarded: s.discarded,
            rogue: s.rogue,
            disorder: s.out_of_order,
            lost: s.lost,
            resets: s.resets,
        },
    }
}

/// The second program's answer as the archive tells it.
pub fn answer_of(r: Result<Arrival, Refusal>) -> ArrivalAnswer {
    match r {
        Err(why) => ArrivalAnswer {
            refusal: why.number(),
            ..ArrivalAnswer::default()
        },
        Ok(a) => {
            let (verdict, length) = match a.verdict {
                Verdict::HandedUp { length } => (HANDED_UP, length),
                Verdict::Duplicate => (DUPLICATE, 0),
                Verdict::Rogue => (ROGUE, 0),
            };
            ArrivalAnswer {
                slot: a.slot,
                length,
                number: a.number,
                verdict,
                refusal: 0,
                priority: a.priority,
                vlantag: a.vlan_tag as u8,
            }
        }
    }
}

/// What answers have told of the VLAN tag, by verdict: each priority, and at 8 none.
pub type Told = [[u64; 9]; 4];

pub fn tell(told: &mut Told, a: &ArrivalAnswer) {
    let place = if a.vlantag == 0 { 8 } else { a.priority };
    told[a.verdict as usize][place as usize] += 1;
}

/// Has each verdict come with every priority, and without a VLAN tag?
pub fn all_told(what: &str, told: &Told) -> Result<(), String> {
    for verdict in [HANDED_UP, DUPLICATE, ROGUE] {
        let what = format!("{} with verdict {}", what, verdict);
        all_seen(&what, &told[verdict as usize], &[0, 1, 2, 3, 4, 5, 6, 7, 8])?;
    }
    Ok(())
}

/// The same table three times.
pub struct Tables {
    pub second: Vec<second::Stream>,
    pub proved: Vec<Stream>,
    pub plain: Vec<Stream>,
}

impl Tables {
    pub fn equal(&self) -> bool {
        self.plain == self.proved
            && self
                .second
                .iter()
                .zip(&self.proved)
                .all(|(a, b)| record_of(a) == *b)
    }

    /// Is a lower slot in use that has this one's key? An arrival that finds this one has passed over it.
    pub fn passes(&self, slot: usize) -> bool {
        let s = &self.proved[slot];
        self.proved[..slot]
            .iter()
            .any(|l| l.used != 0 && l.dest == s.dest && l.vlan == s.vlan)
    }

    /// What the caller may write into a slot, in all three.
    fn set(&mut self, slot: usize, s: second::Stream) {
        self.second[slot] = s;
        self.proved[slot] = record_of(&s);
        self.plain[slot] = record_of(&s);
    }
}

fn destination(dice: &mut Dice) -> [u8; 6] {
    [2, 0, 0, dice.below(2) as u8, 0, dice.below(64) as u8]
}

fn vlan(dice: &mut Dice) -> u16 {
    match dice.below(3) {
        0 => 4095 - dice.below(2) as u16,
        1 => dice.below(8) as u16,
        _ => 0,
    }
}

/// The same for a stream of this rule. A virtual link has another one than 0 rarely, and then it is not opened.
fn vlan_of(dice: &mut Dice, rule: u8) -> u16 {
    if rule == 3 && !dice.one_in(16) {
        0
    } else {
        vlan(dice)
    }
}

/// A table of 1 to 64 slots, rarely of 65, with a stream opened in nearly each by both sides' open.
pub fn tables(dice: &mut Dice, case: u64) -> Result<Tables, String> {
    let slots = match dice.below(20) {
        0 => 65,
        n if n < 10 => 1 + dice.below(8) as usize,
        _ => 1 + dice.below(64) as usize,
    };
    let free = second::Stream::FREE;
    let mut t = Tables {
        second: vec![free; slots],
        proved: vec![record_of(&free); slots],
        plain: vec![],
    };
    let (mut of_second, mut of_proved) = ([0; PLACES], [0; PLACES]);
    for _ in 0..slots + slots / 4 {
        let destination = destination(dice);
        let window = match dice.below(16) {
            0 => 513,
            _ => window(dice),
        };
        let rule = 1 + dice.below(3) as u8;
        let s = Settings {
            destination,
            vlan: vlan_of(dice, rule),
            rule,
            window,
            reset_time: if dice.one_in(2) {
                1 + dice.below(4) as u16
            } else {
                1 + dice.below(65535) as u16
            },
        };
        let x = match second::open(&mut t.second, &mut of_second, s) {
            Ok(slot) => SlotAnswer { slot, refusal: 0 },
            Err(why) => SlotAnswer {
                slot: 0,
                refusal: why.number(),
            },
        };
        let y = proved::open(
            &mut t.proved,
            &mut of_proved,
            &destination,
            s.vlan,
            s.rule,
            s.window,
            s.reset_time,
        );
        if x != y || of_second != of_proved {
            return Err(wrong("an open", case));
        }
    }
    t.plain = t.proved.clone();
    Ok(t)
}

/// Something that the caller's memory may come to hold: free, damaged, with the key of another slot, or with counters about to
/// wrap.
pub fn stir(dice: &mut Dice, t: &mut Tables) {
    let slot = dice.below(t.second.len() as u64) as usize;
    let mut s = t.second[slot];
    let place = dice.below(8) as usize;
    match dice.below(12) {
        0 => s.in_use = dice.below(3) as u8,
        1 => s.rule = dice.below(5) as u8,
        2 => s.window = dice.below(1024) as u16,
        3 => s.reset_time = dice.below(3) as u16,
        4 => s.take_any = dice.below(3) as u16 * 128,
        5 => s.remaining = dice.below(4) as u16,
        6 => s.history[place] = dice.next(),
        7 => s.anchor = dice.next() as u16 >> dice.below(9),
        8 => {
            let other = t.second[dice.below(t.second.len() as u64) as usize];
            s.destination = other.destination;
            s.vlan = other.vlan;
        }
        9 => s.early = dice.below(514) as u16,
        10 => mark_behind(dice, s.window, &mut s.history),
        _ => {
            s.passed = u64::MAX;
            s.arrivals = [u64::MAX; 2];
            s.lost = u64::MAX - dice.below(40);
        }
    }
    t.set(slot, s);
    // Mended again most often, or soon no record would be lawful.
    if !s.is_lawful() && !dice.one_in(8) {
        let mut mended = s;
        mended.in_use = 1;
        mended.rule = 1 + dice.below(3) as u8;
        mended.window = window(dice);
        mended.reset_time = mended.reset_time.max(1);
        mended.vlan = mended.vlan.min(4094);
        mended.take_any = 0;
        mended.remaining = mended.reset_time;
        mended.history = [0; 8];
        mended.early = 0;
        if mended.rule == 1 {
            mended.history = history(dice, mended.window);
            mended.early = early(dice, mended.window, &mut mended.history);
        }
        if mended.rule == 3 {
            mended.vlan = 0;
            mended.anchor %= 256;
        }
        t.set(slot, mended);
    }
}

/// A random slot, most often one that an arrival of a virtual link looks at, or another arrival.
fn slot_for(dice: &mut Dice, t: &Tables, link: bool) -> second::Stream {
    let mut any = || t.second[dice.below(t.second.len() as u64) as usize];
    let first = any();
    let mine = |s: &second::Stream| (s.rule == 3) == link;
    (0..4).map(|_| any()).find(mine).unwrap_or(first)
}

/// The start of a frame to a slot, of random bytes.
fn addressed(dice: &mut Dice, pool: &[u8], s: second::Stream) -> Vec<u8> {
    let length = match dice.below(24) {
        0 => dice.below(27),
        1 => 1990 + dice.below(20),
        2 => dice.below(2000),
        _ => 24 + dice.below(80),
    } as usize;
    let from = dice.below((pool.len() - length) as u64) as usize;
    let mut f = pool[from..from + length].to_vec();
    individual(dice, &mut f);
    let to = if dice.one_in(30) {
        destination(dice)
    } else {
        s.destination
    };
    put(&mut f, 0, &to);
    f
}

/// Writes these bytes, if the frame has the place.
fn put(f: &mut [u8], at: usize, bytes: &[u8]) {
    if let Some(place) = f.get_mut(at..at + bytes.len()) {
        place.copy_from_slice(bytes);
    }
}

/// A frame of a virtual link, most often one of the table's. Sometimes it has a VLAN tag, which means nothing there.
fn link_frame(dice: &mut Dice, pool: &[u8], t: &Tables) -> Vec<u8> {
    let s = slot_for(dice, t, true);
    let mut f = addressed(dice, pool, s);
    if dice.one_in(8) {
        put(&mut f, 12, &[0x81, 0x00]);
    }
    if let Some(last) = f.last_mut() {
        *last = link_number(dice, s.anchor);
    }
    f
}

/// A frame for a slot of the table, most often one that arrives: its number is near the anchor.
pub fn frame(dice: &mut Dice, pool: &[u8], t: &Tables) -> Vec<u8> {
    let s = slot_for(dice, t, false);
    let mut f = addressed(dice, pool, s);
    let vlan = if dice.one_in(30) { vlan(dice) } else { s.vlan };
    let mut at = 12;
    if vlan != 0 || dice.one_in(3) {
        put(&mut f, 12, &[0x81, 0x00]);
        let above = dice.next() as u16 & 0xF000;
        put(&mut f, 14, &(vlan | above).to_be_bytes());
        at = 16;
    }
    let tag = if dice.one_in(30) {
        [0x81, 0x00]
    } else {
        [0xF1, 0xC1]
    };
    put(&mut f, at, &tag);
    // A VLAN tag behind the other one is none.
    if dice.one_in(8) {
        put(&mut f, at + 6, &[0x81, 0x00]);
    }
    let number = match dice.below(16) {
        0..=5 => number(dice, s.anchor, s.window),
        6 | 7 => s.anchor.wrapping_sub(dice.below(8) as u16),
        8 | 9 => s.anchor.wrapping_add(dice.below(8) as u16),
        _ => s.anchor.wrapping_add(1),
    };
    put(&mut f, at + 4, &number.to_be_bytes());
    f
}

/// How many arrivals one table sees.
const LIFE: u64 = 100;

pub fn arrivals(cases: u64) -> Result<u64, String> {
    let mut dice = Dice::new();
    let pool: Vec<u8> = (0..10_000).map(|_| dice.next() as u8).collect();
    let (mut refused, mut verdicts) = ([[0u64; 256]; 2], [[0u64; 256]; 2]);
    let (mut passed, mut alike) = ([0u64; 2], [0u64; 2]);
    let mut told = Told::default();
    let mut t = tables(&mut dice, 0)?;
    for case in 0..cases {
        if case % LIFE == 0 {
            t = tables(&mut dice, case)?;
        }
        if dice.one_in(10) {
            stir(&mut dice, &mut t);
        }
        if dice.one_in(20) {
            let x = match second::tick(&mut t.second) {
                Ok(a) => TickAnswer {
                    resets: a.reset as u64,
                    damaged: a.damaged as u64,
                    refusal: 0,
                },
                Err(why) => TickAnswer {
                    resets: 0,
                    damaged: 0,
                    refusal: why.number(),
                },
            };
            if x != proved::tick(&mut t.proved) {
                return Err(wrong("a tick", case));
            }
            t.plain.copy_from_slice(&t.proved);
        }
        let link = dice.one_in(2);
        // How many bytes are taken out, and where 8100 is no VLAN tag.
        let (f, taken, other) = if link {
            (link_frame(&mut dice, &pool, &t), 1, 12)
        } else {
            (frame(&mut dice, &pool, &t), 6, 18)
        };
        let network = if dice.one_in(30) {
            dice.next() as u8
        } else {
            dice.below(2) as u8
        };
        let room = match dice.below(12) {
            0 => f.len().saturating_sub(taken + 1),
            1 => f.len().saturating_sub(taken),
            _ => f.len() + dice.below(20) as usize,
        };
        let from = dice.below((pool.len() - room) as u64) as usize;
        let start = &pool[from..from + room];
        let (mut a, mut b, mut c) = (start.to_vec(), start.to_vec(), start.to_vec());
        let (x, y, z) = if link {
            (
                answer_of(plain::link_arrival(&mut t.second, network, &f, &mut a)),
                proved::link_arrival(&mut t.proved, network, &f, &mut b),
                plain::link_arrival_at(&mut t.plain, network, &f, &mut c),
            )
        } else {
            (
                answer_of(plain::arrival(&mut t.second, network, &f, &mut a)),
                proved::arrival(&mut t.proved, network, &f, &mut b),
                plain::arrival_at(&mut t.plain, network, &f, &mut c),
            )
        };
        if x != y || x != z || a != b || a != c || !t.equal() {
            return Err(wrong("an arrival", case));
        }
        let family = link as usize;
        refused[family][x.refusal as usize] += 1;
        verdicts[family][x.verdict as usize] += 1;
        passed[family] += (x.refusal == 0 && t.passes(x.slot)) as u64;
        let none = x.refusal == 0 && x.vlantag == 0;
        alike[family] += (none && f[other..].starts_with(&[0x81, 0x00])) as u64;
        if !link {
            tell(&mut told, &x);
        }
    }
    all_seen(
        "an arrival's refusal",
        &refused[0],
        &[0, 1, 2, 3, 4, 5, 6, 7, 8, 14],
    )?;
    all_seen("an arrival's verdict", &verdicts[0], &[0, 1, 2, 3])?;
    all_seen(
        "the refusal of a virtual link's arrival",
        &refused[1],
        &[0, 1, 2, 3, 4, 6, 7, 8, 14],
    )?;
    all_seen(
        "the verdict of a virtual link's arrival",
        &verdicts[1],
        &[0, 1, 2],
    )?;
    all_seen("a slot of the other kind passed over", &passed, &[0, 1])?;
    all_seen("8100 where it is no VLAN tag", &alike, &[0, 1])?;
    all_told("an arrival's priority", &told)?;
    Ok(cases)
}
