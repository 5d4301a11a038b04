//! The block cache by its rules, written a second time for this test, without regard to speed.

use std::collections::BTreeSet;

pub const BLOCK: usize = 4096;
pub const INVALID_PARAM: u32 = 12;

/// What a call is asked for. A read's buffer and a write's bytes are lent beside it.
#[derive(Clone, Copy, PartialEq, Eq, Debug)]
pub enum Call {
    Read(u32),
    Write(u32),
    Sync,
}

/// All that is lent. Slots are words: status, block and place of each.
#[derive(Clone, PartialEq)]
pub struct State {
    pub device: Vec<u8>,
    pub data: Vec<u8>,
    pub slots: Vec<u32>,
    pub buf: Vec<u8>,
}

/// A slot: unused, or with a block and whether that is to be written back.
#[derive(Clone, Copy, PartialEq, Eq)]
struct Slot {
    held: Option<(u32, bool)>,
    place: u32,
}

/// None where a status is none.
fn slot(words: &[u32]) -> Option<Slot> {
    let held = match words[0] {
        0 => None,
        1 => Some((words[1], false)),
        2 => Some((words[1], true)),
        _ => return None,
    };
    Some(Slot { held, place: words[2] })
}

/// None where the call is to be refused.
fn slots(call: Call, state: &State) -> Option<Vec<Slot>> {
    let slots: Vec<Slot> = state.slots.chunks(3).map(|words| slot(words.get(..3)?)).collect::<Option<_>>()?;
    let inside = |block: u32| (u64::from(block) + 1) * BLOCK as u64 <= state.device.len() as u64;
    let used: Vec<u32> = slots.iter().filter_map(|slot| Some(slot.held?.0)).collect();
    let places: BTreeSet<u32> = slots.iter().map(|slot| slot.place).collect();
    let blocks: BTreeSet<u32> = used.iter().copied().collect();
    let asked = match call {
        Call::Read(block) | Call::Write(block) => inside(block) && state.buf.len() == BLOCK,
        Call::Sync => true,
    };
    let holds = asked
        && slots.len() >= 2
        && slots.len() <= 64
        && state.data.len() == BLOCK * slots.len()
        && used.iter().all(|&block| inside(block))
        && places.len() == slots.len()
        && blocks.len() == used.len();
    Some(slots).filter(|_| holds)
}

/// The slot that a call uses, and whether it has the block.
fn used_slot(slots: &[Slot], block: u32) -> (usize, bool) {
    if let Some(i) = slots.iter().position(|slot| slot.held.map_or(false, |held| held.0 == block)) {
        return (i, true);
    }
    if let Some(i) = slots.iter().position(|slot| slot.held.is_none()) {
        return (i, false);
    }
    let last = slots.iter().map(|slot| slot.place).max();
    let i = slots.iter().position(|slot| Some(slot.place) == last);
    (i.expect("there are slots"), false)
}

/// What a call does to the device besides: the block it reads there and the blocks it writes there.
#[derive(Clone, PartialEq, Eq, Debug, Default)]
pub struct Traffic {
    pub read: Option<u32>,
    pub written: Vec<u32>,
}

/// Answers the number and the traffic; `state` is what the call leaves.
pub fn run(call: Call, state: &mut State) -> (u32, Traffic) {
    let mut slots = match slots(call, state) {
        Some(slots) => slots,
        None => return (INVALID_PARAM, Traffic::default()),
    };
    let mut traffic = Traffic::default();
    match call {
        Call::Sync => (0..slots.len()).for_each(|i| write_back(state, &mut slots, i, &mut traffic)),
        Call::Read(block) => {
            let (i, hit) = used_slot(&slots, block);
            if !hit {
                write_back(state, &mut slots, i, &mut traffic);
                let bytes = part(&state.device, block as usize).to_vec();
                state.data.splice(i * BLOCK..(i + 1) * BLOCK, bytes);
                slots[i].held = Some((block, false));
                traffic.read = Some(block);
            }
            state.buf = part(&state.data, i).to_vec();
            to_front(&mut slots, i);
            put(state, &slots, i);
        }
        Call::Write(block) => {
            let (i, hit) = used_slot(&slots, block);
            if !hit {
                write_back(state, &mut slots, i, &mut traffic);
            }
            state.data.splice(i * BLOCK..(i + 1) * BLOCK, state.buf.iter().copied());
            slots[i].held = Some((block, true));
            to_front(&mut slots, i);
            put(state, &slots, i);
        }
    }
    for (i, slot) in slots.iter().enumerate() {
        state.slots[3 * i + 2] = slot.place;
        if let Some((_, dirty)) = slot.held {
            state.slots[3 * i] = 1 + u32::from(dirty);
        }
    }
    (0, traffic)
}

/// The block of the slot that was used. The word of an unused slot's block is none of the rules' business, and stays.
fn put(state: &mut State, slots: &[Slot], i: usize) {
    state.slots[3 * i + 1] = slots[i].held.expect("it is used now").0;
}

fn part(bytes: &[u8], i: usize) -> &[u8] {
    &bytes[i * BLOCK..(i + 1) * BLOCK]
}

fn write_back(state: &mut State, slots: &mut [Slot], i: usize, traffic: &mut Traffic) {
    if let Some((block, true)) = slots[i].held {
        let at = block as usize * BLOCK;
        state.device.splice(at..at + BLOCK, part(&state.data, i).iter().copied());
        slots[i].held = Some((block, false));
        traffic.written.push(block);
    }
}

/// Its place is 0, and each that was less than its old one is one more.
fn to_front(slots: &mut [Slot], i: usize) {
    let old = slots[i].place;
    for slot in slots.iter_mut().filter(|slot| slot.place < old) {
        slot.place += 1;
    }
    slots[i].place = 0;
}

/// What start leaves of any words.
pub fn started(words: &[u32]) -> Vec<u32> {
    let whole = words.len() / 3;
    let slots = (0..whole as u32).flat_map(|place| [0, 0, place]);
    slots.chain(words[3 * whole..].iter().copied()).collect()
}
