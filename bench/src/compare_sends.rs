//! Random sends of one sender, with resets between: the archive's call and the plain one. Answers, the next number and every
//! byte of both outputs must be equal. Each answer, a lack of room in each output alone and in both, and the numbers at the
//! wrap must have come up.
use crate::compare::{all_seen, frame, wrong, Dice};
use crate::record::Sender;
use crate::{plain, proved};

/// An output: most often with room for a result of this length, often with just that.
pub fn output(dice: &mut Dice, pool: &[u8], result: usize) -> Vec<u8> {
    let room = match dice.below(8) {
        0 => result.saturating_sub(1),
        1 => dice.below(2100) as usize,
        2 => result + dice.below(40) as usize,
        3..=5 => result,
        _ => 2100,
    };
    let from = dice.below((pool.len() - room) as u64) as usize;
    pool[from..from + room].to_vec()
}

pub fn sends(cases: u64) -> Result<u64, String> {
    let mut dice = Dice::new();
    let pool: Vec<u8> = (0..10_000).map(|_| dice.next() as u8).collect();
    let mut refused = [0u64; 256];
    let mut lacking = [0u64; 4];
    let mut numbers = vec![0u64; 65536];
    let (mut s, mut t) = (Sender::new(), Sender::new());
    for case in 0..cases {
        if dice.one_in(40) {
            proved::reset_sender(&mut s);
            t = Sender::new();
        }
        if dice.one_in(20) {
            // Any number may stand in the caller's memory. Most often one from which the wrap is soon reached.
            s.next = match dice.below(4) {
                0 => dice.next() as u16,
                _ => 65535 - dice.below(3) as u16,
            };
            t.next = s.next;
        }
        let f = frame(&mut dice, &pool);
        let mut outs = [(); 2].map(|_| output(&mut dice, &pool, f.len() + 6));
        let mut others = outs.clone();
        let lacks = |n: usize| (others[n].len() < f.len() + 6) as usize;
        let lack = lacks(0) + 2 * lacks(1);
        let ([a, b], [c, d]) = (&mut outs, &mut others);
        let x = proved::send(&mut s, &f, a, b);
        let y = plain::send(&mut t, &f, c, d);
        if x != y || s != t || outs != others {
            return Err(wrong("a send", case));
        }
        refused[x.refusal as usize] += 1;
        match x.refusal {
            0 => numbers[x.number as usize] += 1,
            plain::ROOM => lacking[lack] += 1,
            _ => {}
        }
    }
    all_seen("a send", &refused, &[0, 3, 4, 8, 13, 14])?;
    all_seen("a send without room", &lacking, &[1, 2, 3])?;
    all_seen("a send's number", &numbers, &[0, 1, 65534, 65535])?;
    Ok(cases)
}
