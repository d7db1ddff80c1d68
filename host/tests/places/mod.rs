//! Where the slots of a pool are, and tables with other slots.

use slotpool_reference::{slot_bytes, Group, Slot, State, Tables};

/// A slot, with the place of its group in the tables, its number there, where it begins, and its class.
pub struct Place {
    pub group: usize,
    pub number: usize,
    pub begin: usize,
    pub class: usize,
    pub slot: Slot,
}

impl Place {
    pub fn start(&self) -> usize {
        self.begin + 16 * self.slot.last.unwrap_or(0)
    }

    pub fn handle(&self) -> usize {
        self.slot.handle(self.start())
    }

    pub fn end(&self) -> usize {
        self.begin + slot_bytes(self.class) - 4
    }

    pub fn is_live(&self) -> bool {
        self.slot.state == State::Live
    }
}

/// Every slot of some groups.
pub fn places(groups: &[Group]) -> Vec<Place> {
    let mut places = Vec::new();
    for (group, g) in groups.iter().enumerate() {
        for (number, &slot) in g.slots.iter().enumerate() {
            let begin = 512 * g.first_row + 16 + number * slot_bytes(g.class);
            places.push(Place { group, number, begin, class: g.class, slot });
        }
    }
    places
}

/// An arena with header and guard of every live block of some tables that fits its slot.
pub fn marked(arena: &[u8], tables: &Tables) -> Vec<u8> {
    let mut arena = arena.to_vec();
    for place in places(&tables.groups).iter().filter(|place| place.is_live()) {
        let (start, end) = (place.start(), place.end());
        let Some(reserved) = end.checked_sub(start + place.slot.size) else { continue };
        let [low, high, ..] = ((start - place.begin + place.number * slot_bytes(place.class)) / 16).to_le_bytes();
        arena[place.begin - 4..end].fill(0);
        arena[start - 4..start].copy_from_slice(&[0, (place.number + 32 * reserved.min(5)) as u8, low, high]);
        if reserved >= 5 {
            arena[end - 4..end].copy_from_slice(&(reserved as u32).to_le_bytes());
        }
    }
    arena
}

/// Tables with one slot changed.
pub fn with_slot(tables: &Tables, place: &Place, slot: Slot) -> Tables {
    let mut tables = tables.clone();
    tables.groups[place.group].slots[place.number] = slot;
    tables
}
