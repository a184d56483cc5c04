//! The nodes of the forest in 16-bit units, each by the first row of document 01's table that fits it.

pub const FILLER: u16 = 0xFFFF;

/// In place of a right factor: there is none.
pub const NO_FACTOR: u32 = u32::MAX;

/// The units of a node, as many as are told.
pub type Units = ([u16; 6], usize);

const fn low(word: u32) -> u16 {
    word as u16
}

const fn high(word: u32) -> u16 {
    (word >> 16) as u16
}

fn wide(low: u16, high: u16) -> u32 {
    u32::from(low) | u32::from(high) << 16
}

/// A token's leaf: tokens are below 4,096.
pub fn evaluated(token: u16) -> Units {
    ([0x8000 | token, 0, 0, 0, 0, 0], 1)
}

fn is_short_sum(count: u32, nonterminal: u32) -> bool {
    count < 32 && nonterminal < 256
}

pub fn sum(count: u32, nonterminal: u32) -> Units {
    if is_short_sum(count, nonterminal) {
        return ([low(count << 8 | nonterminal), 0, 0, 0, 0, 0], 1);
    }
    ([0xE000 | high(count), low(count), low(nonterminal), high(nonterminal), 0, 0], 4)
}

fn is_short_link(distance: u32, action: u32) -> bool {
    distance < 32 && action < 256
}

fn is_link(distance: u32, action: u32) -> bool {
    distance < 8192 && action < 65536
}

fn is_pair(left: u32, right: u32, action: u32) -> bool {
    right < 32 && left < 256 && action < 65536
}

/// A summand at a position, behind its factors.
pub fn product(at: u32, action: u32, left: u32, right: u32) -> Units {
    let distance = at - left;
    if right == NO_FACTOR {
        if is_short_link(distance, action) {
            return ([low(0x2000 | distance << 8 | action), 0, 0, 0, 0, 0], 1);
        }
        if is_link(distance, action) {
            return ([low(0x4000 | distance), low(action), 0, 0, 0, 0], 2);
        }
    } else if is_pair(distance, at - right, action) {
        return ([low(0x6000 | (at - right) << 8 | distance), low(action), 0, 0, 0, 0], 2);
    }
    ([0xC000 | high(action), low(action), low(left), high(left), low(right), high(right)], 6)
}

/// How many units the node at a position has, if the units there are one.
fn length_at(units: &[u16], at: usize) -> Option<usize> {
    let here = at as u32;
    let unit = |k: usize| units.get(at + k).copied();
    let word = |k: usize| Some(wide(unit(k)?, unit(k + 1)?));
    let head = u32::from(unit(0)?);
    let before = |distance: u32| 0 < distance && distance <= here;
    let (length, is_node) = match head >> 13 {
        0 | 4 => (1, true),
        1 => (1, before(head >> 8 & 31)),
        2 => {
            let (distance, action) = (head & 0x1FFF, u32::from(unit(1)?));
            (2, before(distance) && !is_short_link(distance, action))
        }
        3 => {
            unit(1)?;
            (2, before(head & 255) && before(head >> 8 & 31))
        }
        5 => (4, head <= 0xA001 && unit(1)? == 0 && word(2)? >= 4096),
        6 => {
            let (action, left, right) = ((head & 0x1FFF) << 16 | u32::from(unit(1)?), word(2)?, word(4)?);
            let shorter = |distance| match right {
                NO_FACTOR => is_link(distance, action),
                _ => is_pair(distance, here - right, action),
            };
            (6, left < here && (right == NO_FACTOR || right < here) && !shorter(here - left))
        }
        _ => {
            let (count, nonterminal) = ((head & 0x1FFF) << 16 | u32::from(unit(1)?), word(2)?);
            (4, head < 0xF000 && !is_short_sum(count, nonterminal))
        }
    };
    is_node.then_some(length)
}

/// A bit for each unit.
pub struct Heads(Vec<u64>);

impl Heads {
    /// The heads of the nodes met from 0 to the end of the units, if all are nodes or fillers.
    pub fn of(units: &[u16]) -> Option<Heads> {
        let mut heads = Heads(vec![0; units.len().div_ceil(64)]);
        let mut at = 0;
        while at < units.len() {
            if units[at] == FILLER {
                at += 1;
                continue;
            }
            let length = length_at(units, at)?;
            heads.0[at / 64] |= 1 << (at % 64);
            at += length;
        }
        Some(heads)
    }

    pub fn has(&self, handle: u32) -> bool {
        self.0.get(handle as usize / 64).is_some_and(|word| word >> (handle % 64) & 1 == 1)
    }
}
