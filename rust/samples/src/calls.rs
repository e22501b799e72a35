//! What calls get beside the input: assignments, budgets, buffers, marks, serials, and checkpoints that a walk may or may not have.

use crate::random::Random;
use crate::trials::named_variables;

/// The bytes of a checkpoint.
pub(crate) type Checkpoint = [u8; 50];

/// An assignment that may well be a model, or one with any bits.
pub fn some_assignment(random: &mut Random, input: &[u8]) -> u64 {
    let variables = u64::from(input.get(1).copied().unwrap_or(1).clamp(1, 48));
    let bits = random.bits() & ((1 << variables) - 1);
    match random.below(8) {
        0 => bits | 1 << random.below(64),
        1 => random.bits(),
        2 => 0,
        3 => (1 << variables) - 1,
        _ => bits,
    }
}

/// A budget, large or small.
pub fn some_budget(random: &mut Random) -> u32 {
    match random.below(10) {
        0 => 0,
        1 => 1,
        2 | 3 => random.between(2, 12) as u32,
        4 => 95,
        5 | 6 => 96,
        7 => u32::MAX,
        8 => random.below(200) as u32,
        _ => random.bits() as u32,
    }
}

/// The length of a buffer that must have so many bytes: mostly just so many, at times more or too few.
pub fn some_length(random: &mut Random, least: usize) -> usize {
    match random.below(16) {
        0 => least - 1,
        1 => random.below(least),
        2 => least + random.between(1, 100),
        _ => least,
    }
}

/// The bytes of a buffer of this length, to be weighed as marks: none, few, many or all are marks, and these are 1, as judge leaves them,
/// or any bytes.
pub fn some_marks(random: &mut Random, length: usize) -> Vec<u8> {
    let chance = random.pick(&[0, 5, 20, 50, 80, 100]);
    let ones = random.percent(50);
    let mut mark = || match (random.percent(chance), ones) {
        (false, _) => 0,
        (true, true) => 1,
        (true, false) => random.byte(),
    };
    (0..length).map(|_| mark()).collect()
}

/// The serial of a page's first line: at a limit or past it, near to one that has a digit more, or any other.
pub fn some_serial(random: &mut Random) -> u32 {
    match random.below(24) {
        0 => 0,
        1 => random.pick(&[999_951, 1_000_000, u32::MAX]),
        2 => random.bits() as u32,
        3..=5 => random.pick(&[999_949, 999_950]),
        6..=11 => random.pick(&[100, 1_000, 10_000, 100_000]) - random.between(1, 50) as u32,
        12..=17 => random.between(1, 999_950) as u32,
        _ => 1,
    }
}

/// The checkpoint cut to a length, with a mode, and with the last value turned or not. The walk often has it.
fn cut(random: &mut Random, mut checkpoint: Checkpoint) -> Checkpoint {
    // Short ones are more likely: most trials are made near the root.
    let longest = random.below(usize::from(checkpoint[1]).min(48) + 1);
    let length = random.below(longest + 1);
    checkpoint[0] = random.pick(&[1, 2, 3]);
    checkpoint[1] = length as u8;
    checkpoint[2 + length..].fill(0);
    if length > 0 && random.percent(60) {
        checkpoint[1 + length] ^= 128;
    }
    checkpoint
}

/// The checkpoint with some other change.
fn changed(random: &mut Random, mut checkpoint: Checkpoint) -> Checkpoint {
    let at = random.below(50);
    match random.below(7) {
        0 => checkpoint[0] = random.pick(&[0, 1, 2, 3, 4, 5, 6, 128, 255]),
        1 => checkpoint[1] = checkpoint[1].wrapping_add(random.pick(&[1, 2, 255, 128])),
        2 => checkpoint[1] = random.byte(),
        3 => checkpoint[at] ^= 1 << random.below(8),
        4 => checkpoint[49] = random.byte(),
        5 => checkpoint[2..].swap(random.below(48), random.below(48)),
        _ => checkpoint[at] = random.byte(),
    }
    checkpoint
}

/// A checkpoint from those that walks have returned, as it is or changed, or one from nowhere.
pub fn some_checkpoint(random: &mut Random, pool: &[Checkpoint]) -> Checkpoint {
    if pool.is_empty() || random.percent(3) {
        let mut checkpoint = [0; 50];
        match random.below(3) {
            0 => checkpoint.fill_with(|| random.byte()),
            1 => checkpoint[..4].fill_with(|| random.below(6) as u8),
            _ => {}
        }
        return checkpoint;
    }
    let checkpoint = random.pick(pool);
    match random.below(10) {
        0..=3 => checkpoint,
        4..=7 => cut(random, checkpoint),
        _ => changed(random, checkpoint),
    }
}

/// A checkpoint from those that walks of a readable formula have returned, with a variable more at the end of its trail, which no clause
/// names: no walk has it. None if the clauses name every variable.
pub fn with_unnamed(random: &mut Random, input: &[u8], pool: &[Checkpoint]) -> Option<Checkpoint> {
    let named = named_variables(input);
    let unnamed: Vec<u8> = (1..=input[1])
        .filter(|v| named >> (v - 1) & 1 == 0)
        .collect();
    if unnamed.is_empty() {
        return None;
    }
    let mut checkpoint = random.pick(pool);
    let length = usize::from(checkpoint[1]);
    checkpoint[0] = random.pick(&[1, 2, 3]);
    checkpoint[1] += 1;
    checkpoint[2 + length] = random.pick(&unnamed) + random.pick(&[0, 128]);
    Some(checkpoint)
}

#[cfg(test)]
mod tests {
    use super::*;
    use crate::formulas::encode;

    #[test]
    fn an_unnamed_variable_is_put_behind_the_trail() {
        let mut random = Random::new(1);
        let mut given = [0; 50];
        given[..3].copy_from_slice(&[1, 1, 129]);
        for _ in 0..20 {
            let found = with_unnamed(&mut random, &encode(2, &[vec![1]]), &[given]).unwrap();
            assert!((1..=3).contains(&found[0]) && found[1..3] == [2, 129]);
            assert!(found[3] & 127 == 2 && found[4..] == [0; 46]);
        }
        let all = encode(2, &[vec![1, -2]]);
        assert_eq!(with_unnamed(&mut random, &all, &[given]), None);
    }
}
