//! The region that a call names, to put faults onto its map.

use super::is_sound;
use directives::words::*;
use libtest::call::{Buffers, Call};
use libtest::sound::layout;

/// A segment: its first page and its pages.
pub type Segment = (usize, usize);

/// The live region that a call on sound words names.
pub struct Region {
    /// The first word of its slot.
    pub slot: usize,
    pub page: u32,
    pub by_halves: bool,
    pub first_page: u32,
    /// Its map before the call, and where that is in the memory.
    pub map: Vec<u32>,
    pub map_at: usize,
}

impl Region {
    pub fn of(b: &Buffers, call: &Call) -> Option<Region> {
        let directive = call.directive();
        let is_of_region = directive.has_id() && !directive.is_of_partitions() && is_sound(b);
        let id = is_of_region.then(|| call.arguments()[0])?;
        let region = Region::in_slot(b, slot_of(id)?)?;
        let generation = b.record[region.slot + GENERATION];
        (generation == generation_of(id)).then_some(region)
    }

    /// The live region in a slot, of any generation, on sound words.
    pub fn in_slot(b: &Buffers, index: usize) -> Option<Region> {
        let at = region_at(index);
        let slot = &b.record[at..][..REGION_WORDS];
        if slot[NAME] == 0 {
            return None;
        }
        let found = layout(slot[START], slot[LENGTH], slot[PAGE], slot[ORDER]);
        Some(Region {
            slot: at,
            page: slot[PAGE],
            by_halves: is_by_halves(slot[ORDER]),
            first_page: found.first_page,
            map: b.memory[found.map..][..found.pages as usize].to_vec(),
            map_at: found.map,
        })
    }

    /// The free segments before the call, by rising address.
    pub fn free(&self) -> Vec<Segment> {
        let words = self.map.iter().copied().enumerate();
        let firsts = words.filter(|&(_, word)| word != 0 && word % 2 == 0);
        firsts
            .map(|(first, word)| (first, word as usize / 2))
            .collect()
    }

    pub fn address_of(&self, page: usize) -> u32 {
        self.first_page + page as u32 * self.page
    }

    /// Puts the map of before back.
    pub fn restore(&self, b: &mut Buffers) {
        b.memory[self.map_at..][..self.map.len()].copy_from_slice(&self.map);
    }

    pub fn set(&self, b: &mut Buffers, page: usize, word: usize) {
        b.memory[self.map_at + page] = word as u32;
    }
}
