//! A second implementation of the pool, written from the papers alone, with a plain state of its own: a list of groups, each a list
//! of slots. It is for comparison; it is not what the library runs.

mod replay;

pub use replay::replay;
use slotpool::{Refusal, Totals};

const UNITS: [usize; 48] = [
    1, 2, 3, 4, 5, 6, 7, 8, 9, 10, 12, 15, 18, 20, 25, 31, 36, 42, 50, 63, 72, 84, 102, 127, 146, 170, 204, 255, 292, 340, 409, 511, 584, 682,
    818, 1023, 1169, 1364, 1637, 2047, 2340, 2730, 3276, 4095, 4680, 5460, 6552, 8191,
];

const ROW: usize = 512;
pub const TOO_LARGE: usize = 131_052;

/// The most entries of a list, and the fewest places lent for one.
pub const ENTRIES: usize = 17;

/// The alignments that the tables tell apart.
pub const ALIGNMENTS: [usize; 9] = [ORDINARY, 32, 64, 128, 256, 512, 1024, 2048, 4096];

/// The alignment of every ordinary block.
pub const ORDINARY: usize = 16;

/// The size that decides the class of a block of `n` bytes with an alignment, if it is not too large.
pub fn enlarged(n: usize, align: usize) -> Option<usize> {
    n.checked_add(align - ORDINARY).filter(|&size| size < TOO_LARGE)
}

/// Bytes of a slot of a class.
pub fn slot_bytes(class: usize) -> usize {
    16 * UNITS[class]
}

/// The least class whose slot has `n + 4` bytes.
pub fn class_of(n: usize) -> usize {
    (0..48).find(|&c| slot_bytes(c) >= n + 4).expect("a size below 131,052 has a class")
}

/// Slots of a group.
pub fn slots_of(class: usize) -> usize {
    (4080 / slot_bytes(class)).clamp(1, 31)
}

/// Rows of a group.
pub fn rows_of(class: usize) -> usize {
    (16 + slot_bytes(class) * slots_of(class)).div_ceil(ROW)
}

/// The start of a handle: its low four bits are a use count.
pub fn start_of(handle: usize) -> usize {
    handle - handle % 16
}

#[derive(Clone, Copy, Debug, PartialEq, Eq)]
pub enum State {
    Ready,
    Waiting,
    Live,
}

#[derive(Clone, Copy, Debug, PartialEq, Eq)]
pub struct Slot {
    pub state: State,
    /// The displacement of its last start, once it was granted in this group.
    pub last: Option<usize>,
    pub count: u8,
    pub size: usize,
    /// The alignment of a live block; [`ORDINARY`] if the slot is not live.
    pub align: usize,
}

impl Slot {
    pub const NEVER_GRANTED: Slot = Slot { state: State::Ready, last: None, count: 0, size: 0, align: ORDINARY };

    /// The handle of a live block that starts somewhere: its own grant is the last that was counted.
    pub fn handle(&self, start: usize) -> usize {
        start + self.count.wrapping_sub(1) as usize % 16
    }
}

#[derive(Clone, Debug, PartialEq, Eq)]
pub struct Group {
    pub class: usize,
    pub first_row: usize,
    pub slots: Vec<Slot>,
}

impl Group {
    fn beginning(&self, i: usize) -> usize {
        ROW * self.first_row + 16 + i * slot_bytes(self.class)
    }

    fn has_room(&self) -> bool {
        self.slots.iter().any(|s| s.state != State::Live)
    }
}

/// What a sound table room says: the arena's rows and its groups, by their first rows.
#[derive(Clone, Debug, PartialEq, Eq)]
pub struct Tables {
    pub rows: usize,
    pub groups: Vec<Group>,
}

fn number(bytes: &[u8]) -> usize {
    bytes.iter().rev().fold(0, |n, &b| 256 * n + b as usize)
}

/// The totals of an arena of so many rows with these groups.
fn count(rows: usize, groups: &[Group]) -> Totals {
    let mut t = Totals::default();
    for s in groups.iter().flat_map(|g| &g.slots) {
        match s.state {
            State::Live => {
                t.live_blocks += 1;
                t.requested_bytes += s.size;
            }
            State::Ready => t.ready_slots += 1,
            State::Waiting => t.waiting_slots += 1,
        }
    }
    t.rows_held = groups.iter().map(|g| rows_of(g.class)).sum();
    t.rows_free = rows - t.rows_held;
    t
}

/// A byte form of the tables: how a slot is written to the record of its group's first row, and read from it.
struct Form {
    write: fn(&mut [u8], usize, &Slot),
    read: fn(&[u8], usize) -> Option<Slot>,
}

/// The first engine's: ready and waiting slots are bits of two masks.
const MASKS: Form = Form { write: write_by_mask, read: read_by_mask };

/// The plain engine's: a slot's record says its condition, and there are no masks.
const PLAIN: Form = Form { write: write_by_condition, read: read_by_condition };

impl Tables {
    /// The byte form of docs/TABLES.md.
    pub fn write(&self) -> Vec<u8> {
        self.write_as(MASKS)
    }

    /// The byte form of the plain engine.
    pub fn write_plain(&self) -> Vec<u8> {
        self.write_as(PLAIN)
    }

    fn write_as(&self, form: Form) -> Vec<u8> {
        let mut room = vec![0; 16 + 264 * self.rows];
        room[..4].copy_from_slice(&((ROW * self.rows) as u32).to_le_bytes());
        for g in &self.groups {
            let at = 16 + 264 * g.first_row;
            room[at] = 1;
            room[at + 1] = g.class as u8;
            for k in 1..rows_of(g.class) {
                room[at + 264 * k] = 2;
                room[at + 264 * k + 1] = k as u8;
            }
            for (i, s) in g.slots.iter().enumerate() {
                (form.write)(&mut room[at..], i, s);
            }
        }
        room
    }

    /// The tables that a room says, if they are sound under an arena of some length and a record of totals.
    pub fn read(arena_len: usize, room: &[u8], record: &Totals) -> Option<Tables> {
        Tables::read_alone(arena_len, room).filter(|tables| tables.totals() == *record)
    }

    /// The record that is due beside these tables.
    pub fn totals(&self) -> Totals {
        count(self.rows, &self.groups)
    }

    /// The tables that a room says, if they are sound but for the record.
    pub fn read_alone(arena_len: usize, room: &[u8]) -> Option<Tables> {
        Tables::read_as(MASKS, arena_len, room)
    }

    /// The tables that a room of the plain engine says, if they are sound under an arena of some length.
    pub fn read_plain(arena_len: usize, room: &[u8]) -> Option<Tables> {
        Tables::read_as(PLAIN, arena_len, room)
    }

    /// Reads the fields, tests the rules one by one, and compares with the form of what was read.
    fn read_as(form: Form, arena_len: usize, room: &[u8]) -> Option<Tables> {
        if !(ROW..=512 * ROW).contains(&arena_len) || arena_len % ROW != 0 {
            return None;
        }
        let rows = arena_len / ROW;
        if room.len() != 16 + 264 * rows || number(&room[..4]) != arena_len {
            return None;
        }
        let mut tables = Tables { rows, groups: Vec::new() };
        let mut row = 0;
        while row < rows {
            let record = &room[16 + 264 * row..][..264];
            if record[0] != 1 {
                row += 1;
                continue;
            }
            let class = record[1] as usize;
            if class >= 48 || row + rows_of(class) > rows {
                return None;
            }
            let group = Group { class, first_row: row, slots: (0..slots_of(class)).map(|i| (form.read)(record, i)).collect::<Option<_>>()? };
            if !group.slots.iter().any(|s| s.state == State::Live) || !(0..group.slots.len()).all(|i| slot_rule(&group, i)) {
                return None;
            }
            row += rows_of(class);
            tables.groups.push(group);
        }
        if tables.write_as(form) != room {
            return None;
        }
        Some(tables)
    }
}

fn write_by_mask(record: &mut [u8], i: usize, s: &Slot) {
    match s.state {
        State::Ready => record[8 + i / 8] |= 1 << (i % 8),
        State::Waiting => record[12 + i / 8] |= 1 << (i % 8),
        State::Live => {}
    }
    write_record(record, i, if s.last.is_some() { code(s.align) } else { 0 }, s);
}

fn write_by_condition(record: &mut [u8], i: usize, s: &Slot) {
    let condition = match (s.state, s.last) {
        (State::Ready, None) => 0,
        (State::Ready, Some(_)) => 1,
        (State::Waiting, _) => 2,
        (State::Live, _) => 2 + code(s.align),
    };
    write_record(record, i, condition, s);
}

/// A slot's record, which begins with one byte or another.
fn write_record(record: &mut [u8], i: usize, first: u8, s: &Slot) {
    let [low, high, ..] = s.last.unwrap_or(0).to_le_bytes();
    let [size @ .., _] = (s.size as u32).to_le_bytes();
    let r = &mut record[16 + 8 * i..][..8];
    r[..4].copy_from_slice(&[first, s.count, low, high]);
    r[4..7].copy_from_slice(&size);
}

fn read_by_mask(record: &[u8], i: usize) -> Option<Slot> {
    let bit = |at: usize| record[at + i / 8] >> (i % 8) & 1 == 1;
    let state = match (bit(8), bit(12)) {
        (true, true) => return None,
        (true, false) => State::Ready,
        (false, true) => State::Waiting,
        (false, false) => State::Live,
    };
    Some(match record[16 + 8 * i] {
        0 => read_record(record, i, state, false, ORDINARY),
        first => read_record(record, i, state, true, coded(first)?),
    })
}

fn read_by_condition(record: &[u8], i: usize) -> Option<Slot> {
    Some(match record[16 + 8 * i] {
        0 => read_record(record, i, State::Ready, false, ORDINARY),
        1 => read_record(record, i, State::Ready, true, ORDINARY),
        2 => read_record(record, i, State::Waiting, true, ORDINARY),
        condition => read_record(record, i, State::Live, true, coded(condition - 2)?),
    })
}

/// A slot by what its record says after the first byte. A field that says nothing is not read: it is 0 in the form.
fn read_record(record: &[u8], i: usize, state: State, granted: bool, align: usize) -> Slot {
    let r = &record[16 + 8 * i..][..8];
    let size = if state == State::Live { number(&r[4..7]) } else { 0 };
    Slot { state, last: granted.then(|| number(&r[2..4])), count: r[1], size, align }
}

/// The place of an alignment in the list, from 1.
fn code(align: usize) -> u8 {
    1 + ALIGNMENTS.iter().position(|&a| a == align).expect("an alignment of the list") as u8
}

/// The alignment that such a byte says, if it says one.
fn coded(byte: u8) -> Option<usize> {
    ALIGNMENTS.into_iter().find(|&align| code(align) == byte)
}

fn slot_rule(group: &Group, i: usize) -> bool {
    let s = &group.slots[i];
    let most = slot_bytes(group.class) - 4;
    match (s.state, s.last) {
        (State::Live, Some(d)) => {
            let fits = 16 * d + s.size <= most;
            let aligned = (group.beginning(i) + 16 * d) % s.align == 0;
            fits && aligned && enlarged(s.size, s.align).is_some_and(|size| serves(group.class, size))
        }
        (State::Live, None) => false,
        (State::Ready | State::Waiting, Some(d)) => 16 * d <= most && s.align == ORDINARY,
        (State::Ready, None) => s.count == 0,
        (State::Waiting, None) => false,
    }
}

/// Whether a class is that of a size or the next one up.
fn serves(class: usize, size: usize) -> bool {
    let least = class_of(size);
    class == least || class == least + 1
}

fn cap_in_range(cap: usize) -> bool {
    (1..TOO_LARGE).contains(&cap)
}

/// Whether no 17 entries can hold the bytes.
fn too_long(length: usize, cap: usize) -> bool {
    !cap_in_range(cap) || length.div_ceil(cap) > ENTRIES
}

/// Whether a proposal for a list is accepted.
pub fn check_list(length: usize, cap: usize, sizes: &[usize]) -> bool {
    let together: u128 = sizes.iter().map(|&n| n as u128).sum();
    cap_in_range(cap) && sizes.len() <= ENTRIES && sizes.iter().all(|n| (1..=cap).contains(n)) && together == length as u128
}

/// A proposal for a list: as few sizes as will do, no two of them more than a byte apart.
pub fn plan_list(length: usize, cap: usize) -> Result<Vec<usize>, Refusal> {
    if too_long(length, cap) {
        return Err(Refusal::TooLong);
    }
    let count = length.div_ceil(cap);
    Ok((0..count).map(|i| (length + i) / count).collect())
}

/// A pool with its arena.
#[derive(Clone, Debug, PartialEq, Eq)]
pub struct Reference {
    pub arena: Vec<u8>,
    pub groups: Vec<Group>,
}

/// Where a slot is: the group's place in the list, and the slot's number.
#[derive(Clone, Copy)]
struct At {
    group: usize,
    slot: usize,
}

impl Reference {
    pub fn set_up(arena_len: usize) -> Reference {
        Reference { arena: vec![0; arena_len], groups: Vec::new() }
    }

    /// A pool over an arena whose room is sound and says these tables.
    pub fn over(arena: Vec<u8>, tables: Tables) -> Reference {
        Reference { arena, groups: tables.groups }
    }

    pub fn tables(&self) -> Tables {
        Tables { rows: self.arena.len() / ROW, groups: self.groups.clone() }
    }

    fn held(&self) -> Vec<bool> {
        let mut held = vec![false; self.arena.len() / ROW];
        for g in &self.groups {
            held[g.first_row..g.first_row + rows_of(g.class)].fill(true);
        }
        held
    }

    pub fn grant(&mut self, n: usize) -> Result<usize, Refusal> {
        self.grant_as(n, ORDINARY)
    }

    pub fn grant_aligned(&mut self, n: usize, align: usize) -> Result<usize, Refusal> {
        if !align.is_power_of_two() || align > 4096 {
            return Err(Refusal::BadAlignment);
        }
        self.grant_as(n, align.max(ORDINARY))
    }

    /// Grants a block with an alignment of the list: the slot's count displaces an ordinary one, the next boundary any other.
    fn grant_as(&mut self, n: usize, align: usize) -> Result<usize, Refusal> {
        let class = class_of(enlarged(n, align).ok_or(Refusal::TooLarge)?);
        let group = match self.groups.iter().position(|g| g.class == class && g.has_room()) {
            Some(k) => k,
            None => self.make_group(class)?,
        };
        let g = &mut self.groups[group];
        if g.slots.iter().all(|s| s.state != State::Ready) {
            for s in g.slots.iter_mut().filter(|s| s.state == State::Waiting) {
                s.state = State::Ready;
            }
        }
        let i = g.slots.iter().position(|s| s.state == State::Ready).expect("a slot that is not live is ready now");
        let (begin, s) = (g.beginning(i), slot_bytes(class));
        let d = if align == ORDINARY {
            let t = (s - 4 - n) / 16;
            g.slots[i].count as usize % (t + 1)
        } else {
            (begin.next_multiple_of(align) - begin) / 16
        };
        let before = g.slots[i].count;
        g.slots[i] = Slot { state: State::Live, last: Some(d), count: before.wrapping_add(1), size: n, align };
        self.arena[begin - 4..begin - 4 + s].fill(0);
        self.mark(At { group, slot: i });
        Ok(begin + 16 * d + before as usize % 16)
    }

    /// Grants the sizes of a proposal on a copy of the pool, which is kept if all of them were granted.
    pub fn grant_list(&mut self, length: usize, cap: usize, sizes: &[usize], handles: &mut [usize]) -> Result<usize, Refusal> {
        if too_long(length, cap) || handles.len() < ENTRIES {
            return Err(Refusal::TooLong);
        }
        if !check_list(length, cap, sizes) {
            return Err(Refusal::BadProposal);
        }
        let mut copy = self.clone();
        let granted = sizes.iter().map(|&n| copy.grant(n)).collect::<Result<Vec<usize>, Refusal>>()?;
        handles[..granted.len()].copy_from_slice(&granted);
        *self = copy;
        Ok(granted.len())
    }

    fn make_group(&mut self, class: usize) -> Result<usize, Refusal> {
        let held = self.held();
        let need = rows_of(class);
        let first_row = (0..held.len())
            .find(|&r| r + need <= held.len() && held[r..r + need].iter().all(|h| !h))
            .ok_or(Refusal::NoRoom)?;
        let k = self.groups.iter().position(|g| g.first_row > first_row).unwrap_or(self.groups.len());
        self.groups.insert(k, Group { class, first_row, slots: vec![Slot::NEVER_GRANTED; slots_of(class)] });
        Ok(k)
    }

    /// Writes the header and the guard of a live block.
    fn mark(&mut self, at: At) {
        let header = self.header(at);
        let guard = self.guard(at);
        let start = self.start(at);
        self.arena[start - 4..start].copy_from_slice(&header);
        let end = self.end(at);
        self.arena[end - guard.len()..end].copy_from_slice(&guard);
    }

    fn start(&self, at: At) -> usize {
        let g = &self.groups[at.group];
        g.beginning(at.slot) + 16 * g.slots[at.slot].last.expect("a granted slot")
    }

    fn end(&self, at: At) -> usize {
        let g = &self.groups[at.group];
        g.beginning(at.slot) + slot_bytes(g.class) - 4
    }

    fn reserved(&self, at: At) -> usize {
        self.end(at) - self.start(at) - self.groups[at.group].slots[at.slot].size
    }

    fn header(&self, at: At) -> [u8; 4] {
        let g = &self.groups[at.group];
        let place = (at.slot * UNITS[g.class] + g.slots[at.slot].last.expect("a granted slot")) as u16;
        let [low, high] = place.to_le_bytes();
        [0, (at.slot + 32 * self.reserved(at).min(5)) as u8, low, high]
    }

    fn guard(&self, at: At) -> Vec<u8> {
        let r = self.reserved(at);
        if r < 5 {
            return Vec::new();
        }
        let mut g = vec![0];
        g.extend_from_slice(&(r as u32).to_le_bytes());
        g
    }

    /// The slot whose last start is that of a handle. There is at most one.
    fn find(&self, handle: usize) -> Option<At> {
        let (mut found, start) = (None, start_of(handle));
        for (group, g) in self.groups.iter().enumerate() {
            for (slot, s) in g.slots.iter().enumerate() {
                if s.last.is_some_and(|d| g.beginning(slot) + 16 * d == start) {
                    found = Some(At { group, slot });
                }
            }
        }
        found
    }

    /// The alignment of the live block at the start of a handle; [`ORDINARY`] for any other start.
    pub fn alignment(&self, handle: usize) -> usize {
        self.find(handle).map_or(ORDINARY, |at| self.groups[at.group].slots[at.slot].align)
    }

    /// The live, undamaged block whose handle this is.
    fn block(&self, handle: usize) -> Result<At, Refusal> {
        let at = self.find(handle).ok_or(Refusal::NoSuchBlock)?;
        let slot = self.groups[at.group].slots[at.slot];
        if slot.state != State::Live {
            return Err(Refusal::AlreadyFree);
        }
        let start = self.start(at);
        if slot.handle(start) != handle {
            return Err(Refusal::Stale);
        }
        if self.arena[start - 4..start] != self.header(at) {
            return Err(Refusal::HeaderDamaged);
        }
        let end = self.end(at);
        // the byte right after the requested ones, where the block has a spare one
        let past = end - self.reserved(at);
        let guard = self.guard(at);
        if past < end && self.arena[past] != 0 || self.arena[end - guard.len()..end] != guard[..] {
            return Err(Refusal::Overrun);
        }
        Ok(at)
    }

    fn give_back(&mut self, at: At) {
        let g = &mut self.groups[at.group];
        let (begin, s) = (g.beginning(at.slot), slot_bytes(g.class));
        g.slots[at.slot] = Slot { state: State::Waiting, size: 0, align: ORDINARY, ..g.slots[at.slot] };
        self.arena[begin - 4..begin - 4 + s].fill(0);
        if g.slots.iter().all(|s| s.state != State::Live) {
            let from = ROW * g.first_row;
            let to = from + ROW * rows_of(g.class);
            self.arena[from..to].fill(0);
            self.groups.remove(at.group);
        }
    }

    pub fn release(&mut self, handle: usize) -> Result<(), Refusal> {
        let at = self.block(handle)?;
        self.give_back(at);
        Ok(())
    }

    /// The live, undamaged block whose handle this is, if `n` bytes are not too many for it, and their enlarged size.
    fn resizable(&self, handle: usize, n: usize) -> Result<(At, usize), Refusal> {
        // the alignment of a live block counts before it is known whether there is one, with this handle and undamaged
        let size = enlarged(n, self.alignment(handle)).ok_or(Refusal::TooLarge)?;
        Ok((self.block(handle)?, size))
    }

    pub fn resize_in_place(&mut self, handle: usize, n: usize) -> Result<usize, Refusal> {
        let (at, size) = self.resizable(handle, n)?;
        let (start, end) = (self.start(at), self.end(at));
        let g = &mut self.groups[at.group];
        if start + n > end || !serves(g.class, size) {
            return Err(Refusal::NotInPlace);
        }
        let slot = &mut g.slots[at.slot];
        let kept = slot.size.min(n);
        slot.size = n;
        self.arena[start + kept..end].fill(0);
        self.mark(at);
        Ok(handle)
    }

    pub fn move_block(&mut self, handle: usize, n: usize) -> Result<usize, Refusal> {
        let (at, _) = self.resizable(handle, n)?;
        let (start, Slot { size, align, .. }) = (self.start(at), self.groups[at.group].slots[at.slot]);
        let moved = self.grant_as(n, align)?;
        self.arena.copy_within(start..start + size.min(n), start_of(moved));
        // a group that the grant made may have come before the old block's
        let old = self.find(handle).expect("the old block is live");
        self.give_back(old);
        Ok(moved)
    }

    pub fn measure(&self, handle: usize) -> Result<usize, Refusal> {
        let at = self.block(handle)?;
        Ok(self.groups[at.group].slots[at.slot].size)
    }

    /// The totals, counted anew: this pool keeps no record.
    pub fn report(&self) -> Totals {
        count(self.arena.len() / ROW, &self.groups)
    }

    /// Every live block: handle and size.
    pub fn live(&self) -> Vec<(usize, usize)> {
        let mut blocks = Vec::new();
        for g in &self.groups {
            for (i, s) in g.slots.iter().enumerate() {
                if let (State::Live, Some(d)) = (s.state, s.last) {
                    blocks.push((s.handle(g.beginning(i) + 16 * d), s.size));
                }
            }
        }
        blocks
    }

    /// Every last start of a slot that is not live.
    pub fn freed(&self) -> Vec<usize> {
        let mut starts = Vec::new();
        for g in &self.groups {
            for (i, s) in g.slots.iter().enumerate() {
                if let (State::Ready | State::Waiting, Some(d)) = (s.state, s.last) {
                    starts.push(g.beginning(i) + 16 * d);
                }
            }
        }
        starts
    }
}
