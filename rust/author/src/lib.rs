//! Makes up calls that suit the state that a list of calls has reached.
//!
//! Most arguments are chosen from what the model holds, so that most calls
//! succeed; the others are near the limits or anything at all. What is right
//! is never read from the model here.

pub mod alignments;
pub mod cases;
pub mod halves;
pub mod names;
mod random;

use alignments::MAX_ALIGNMENT;
use directives::words::{generation_of, GENERATIONS, ID_STEP, SLOTS, TASKS};
use directives::{Call, Directive};
use model::{Kind, Model};
use names::Seen;
pub use random::Random;

/// Numbers at the edges of what a rule or a number type allows; the last ones
/// are around 2^31 and below 2^32.
pub const EDGES: [u32; 36] = [
    0, 1, 2, 3, 4, 7, 8, 9, 15, 16, 17, 63, 64, 65, 255, 256, 257, 4_095, 4_096, 4_097, 16_383,
    16_384, 16_385, 65_532, 65_535, 65_536, 65_537, 2147483647, 2147483648, 2147483649, 4294901760,
    4294967231, 4294967232, 4294967288, 4294967294, 4294967295,
];

/// Objects are mostly named from 1 up to this. There are more such names than
/// slots, so that a new object can have one.
const NAMES: u32 = SLOTS as u32 + 4;

/// What the calls of one list have in common.
#[derive(Clone, Debug)]
pub struct Style {
    /// How many of a hundred arguments are odd ones.
    pub odd: u32,
    /// How many of a hundred choices are none.
    pub odd_choices: u32,
    /// How many of a hundred new objects are to have the name of a live one of
    /// their kind.
    pub taken_names: u32,
    /// How many of a hundred new regions are by halves.
    pub halves: u32,
    /// How many of a hundred gets may wait.
    pub waits: u32,
    /// How many of a hundred gets ask for few pages.
    pub small_gets: u32,
    /// How many of a hundred gets by pages have an alignment.
    pub alignments: u32,
    /// New areas have at most so many bytes, if that is enough for a page.
    pub longest: u32,
    /// Pages and buffers are mostly not larger than this.
    pub largest_unit: u32,
}

impl Default for Style {
    fn default() -> Style {
        Style {
            odd: 5,
            odd_choices: 0,
            taken_names: 5,
            halves: 50,
            waits: 40,
            small_gets: 40,
            alignments: 25,
            longest: 6_000,
            largest_unit: 512,
        }
    }
}

/// The parts of the memory that no live object takes, without byte 0.
pub fn gaps(model: &Model) -> Vec<(u32, u32)> {
    let mut areas = model.areas();
    areas.sort_by_key(|area| area.start);
    let mut gaps = Vec::new();
    let mut low = 1;
    for area in &areas {
        gaps.push((low, area.start));
        low = area.end() as u32;
    }
    gaps.push((low, model.memory_bytes()));
    gaps.retain(|(low, high)| low < high);
    gaps
}

/// Makes up one call.
pub struct Author<'a> {
    pub random: &'a mut Random,
    pub style: &'a Style,
    pub model: &'a Model,
}

impl Author<'_> {
    /// A call of one directive, by its keys.
    pub fn call_of(&mut self, directive: Directive) -> Call {
        let of_partitions = directive.is_of_partitions();
        let arguments = match directive.keys() {
            [] => vec![],
            ["name"] => vec![self.name()],
            ["id"] if of_partitions => vec![self.partition_id()],
            ["id"] => vec![self.region_id()],
            ["id", "address"] if of_partitions => {
                let id = self.busy_partition();
                vec![id, self.buffer(id)]
            }
            ["id", "address"] => self.segment().to_vec(),
            ["id", "address", "size"] => {
                let [id, address] = match self.random.chance(50) {
                    true => self.waited_segment(),
                    false => self.segment(),
                };
                vec![id, address, self.new_size(id, address)]
            }
            ["id", "address", "first"] => return self.write(),
            ["id", "size", "align", "wait", "task", "priority", "ticks"] => self.get(),
            ["name", "start", "length", "page", "order"] => {
                let (start, length) = self.area(1);
                let page = self.unit(1, length);
                vec![self.new_name(directive), start, length, page, self.order()]
            }
            ["name", "start", "length", "size"] => {
                let (start, length) = self.area(4);
                let name = self.new_name(directive);
                vec![name, start, length, self.unit(4, length)]
            }
            keys => panic!("no arguments are made up for {keys:?}"),
        };
        directive.call(&arguments)
    }

    fn is_odd(&mut self) -> bool {
        self.random.chance(self.style.odd)
    }

    /// A number at an edge or near one, or any number.
    fn odd_number(&mut self) -> u32 {
        let bytes = self.model.memory_bytes();
        let edge = self.random.pick(&EDGES);
        match self.random.below(4) {
            0 => edge,
            1 => self.random.word(),
            n => {
                let near = if n == 2 { edge } else { bytes };
                near.wrapping_add(self.random.between(0, 8)).wrapping_sub(4)
            }
        }
    }

    /// A name to look for. Names are few, so that some object has it.
    fn name(&mut self) -> u32 {
        let names = [self.model.region_names(), self.model.partition_names()].concat();
        if self.is_odd() {
            return self.odd_name(&names);
        }
        match self.random.pick_any(&names) {
            Some(name) if self.random.chance(60) => name,
            _ => self.random.between(1, NAMES),
        }
    }

    /// A name for a new object. Mostly no live object of its kind has it, but
    /// one of the other kind may, or a deleted one had it.
    pub fn new_name(&mut self, create: Directive) -> u32 {
        let seen = Seen::new(self.model, create);
        let taken: Vec<u32> = seen.own.iter().map(|(name, _)| *name).collect();
        match self.random.pick_any(&taken) {
            Some(name) if self.random.chance(self.style.taken_names) => return name,
            _ if self.is_odd() => return self.odd_name(&taken),
            _ => {}
        }
        let mut names = match self.random.below(4) {
            0 => seen.other.clone(),
            1 => seen.old.clone(),
            _ => vec![],
        };
        names.retain(|name| !seen.is_taken(*name));
        if names.is_empty() {
            names.extend((1..=NAMES).filter(|name| !seen.is_taken(*name)));
        }
        self.random.pick(&names)
    }

    /// Mostly 0, or a name that differs in one bit from one of these.
    fn odd_name(&mut self, names: &[u32]) -> u32 {
        match (self.random.below(4), self.random.pick_any(names)) {
            (0, _) => self.odd_number(),
            (1, Some(name)) => name ^ 1 << self.random.below(32),
            _ => 0,
        }
    }

    /// An order; a wrong one where the style allows it.
    pub fn order(&mut self) -> u32 {
        if self.random.chance(self.style.odd_choices) {
            return self.random.pick(&[4, 5, 256, 1 << 31, u32::MAX]);
        }
        let halves = u32::from(self.random.chance(self.style.halves));
        2 * halves + self.random.between(0, 1)
    }

    /// Whether a get may wait; a wrong choice where the style allows one.
    fn wait(&mut self) -> u32 {
        if self.random.chance(self.style.odd_choices) {
            return self.random.pick(&[2, 3, 256, 1 << 31, u32::MAX]);
        }
        u32::from(self.random.chance(self.style.waits))
    }

    /// One of some ids, if there is any, or an odd one, of the kind with these
    /// slots.
    fn id(&mut self, ids: &[u32], slots: &[(u32, bool)]) -> u32 {
        if self.is_odd() {
            return self.odd_id(slots);
        }
        let (any, _) = self.random.pick(slots);
        self.random.pick_any(ids).unwrap_or(any)
    }

    /// An id of some slot, of another generation of it or of no slot.
    fn odd_id(&mut self, slots: &[(u32, bool)]) -> u32 {
        let (id, _) = self.random.pick(slots);
        match self.random.below(9) {
            0 => id,
            1 => self.random.between(0, SLOTS as u32 + 1),
            2 => self
                .random
                .pick(&[9, 255, 256, 257, 1 << 20, 1 << 31, u32::MAX]),
            // No slot has these numbers.
            3 => {
                let number = self.random.pick(&[0, 9, 10, 11, 12, 13, 14, 15]);
                ID_STEP * generation_of(id) + number
            }
            4 => id.wrapping_sub(ID_STEP.wrapping_mul(self.distance())),
            5 => id.wrapping_add(ID_STEP.wrapping_mul(self.distance())),
            _ => self.old_id(slots),
        }
    }

    /// An id that a slot gave before, if one did.
    fn old_id(&mut self, slots: &[(u32, bool)]) -> u32 {
        let mut used = slots.to_vec();
        used.retain(|(id, _)| generation_of(*id) > 0);
        let (id, _) = self.random.pick_any(&used).unwrap_or(slots[0]);
        let generations = generation_of(id);
        let most = match self.random.chance(80) {
            true => generations.min(3),
            false => generations,
        };
        id - ID_STEP * self.random.between(most.min(1), most)
    }

    /// How far a generation is from another: mostly a little, or what is lost
    /// where too few bits are kept.
    fn distance(&mut self) -> u32 {
        match self.random.below(4) {
            0 => self.random.pick(&[255, 256, 4_096, 32_768, 65_535]),
            1 => GENERATIONS << self.random.between(0, 11),
            _ => self.random.between(1, 5),
        }
    }

    pub fn region_id(&mut self) -> u32 {
        self.id(&self.model.region_ids(), &self.model.region_slots())
    }

    pub fn partition_id(&mut self) -> u32 {
        self.id(&self.model.partition_ids(), &self.model.partition_slots())
    }

    /// The id of a region of which something is held, if there is one.
    pub fn busy_region(&mut self) -> u32 {
        let mut ids = self.model.region_ids();
        ids.retain(|&id| self.model.segments(id).iter().any(|segment| segment.held));
        match ids[..] {
            [] => self.region_id(),
            _ => self.id(&ids, &self.model.region_slots()),
        }
    }

    /// The id of a region in which tasks wait, if there is one.
    fn waited_region(&mut self) -> u32 {
        let waiting = self.model.waiting();
        let ids: Vec<u32> = waiting.iter().map(|(_, id)| *id).collect();
        match ids[..] {
            [] => self.busy_region(),
            _ => self.id(&ids, &self.model.region_slots()),
        }
    }

    /// The id of a partition of which something is held, if there is one.
    pub fn busy_partition(&mut self) -> u32 {
        let mut ids = self.model.partition_ids();
        ids.retain(|&id| !self.model.held_buffers(id).is_empty());
        match ids[..] {
            [] => self.partition_id(),
            _ => self.id(&ids, &self.model.partition_slots()),
        }
    }

    /// Start and length of an area, mostly in a gap between the live ones.
    fn area(&mut self, step: u32) -> (u32, u32) {
        let (mut start, mut length) = self.free_area(step);
        if self.is_odd() {
            start = self.odd_start(start, length);
        }
        if self.is_odd() {
            length = self.odd_length(start, length);
        }
        (start, length)
    }

    fn free_area(&mut self, step: u32) -> (u32, u32) {
        let mut gaps = gaps(self.model);
        if self.random.chance(90) && gaps.iter().any(|(low, high)| high - low >= 40) {
            gaps.retain(|(low, high)| high - low >= 40);
        }
        let Some((low, high)) = self.random.pick_any(&gaps) else {
            return (self.random.between(1, self.model.memory_bytes()), 8);
        };
        let start = match self.random.below(4) {
            0 => self.random.between(low, high - 1),
            _ => low + self.random.pick(&[0, 0, 0, 1, 2, 3, 4, 60]),
        };
        let start = start.next_multiple_of(step);
        let start = if start < high { start } else { low };
        let room = high - start;
        let most = self.style.longest.max(64).min(room);
        let length = match self.random.below(24) {
            0 => room,
            1 => room + self.random.between(0, 2),
            2 => self.random.between(0, most),
            3..=7 => most,
            8..=11 => self.random.between(most / 8, most),
            _ => self.random.between(most / 2, most),
        };
        (start, length)
    }

    fn odd_start(&mut self, start: u32, length: u32) -> u32 {
        let areas = self.model.areas();
        match (self.random.below(6), self.random.pick_any(&areas)) {
            (0, _) => 0,
            (1, Some(area)) => (area.end() as u32).saturating_sub(self.random.between(1, 8)),
            (2, Some(area)) => (area.start + 1).saturating_sub(length).max(1),
            (3, Some(area)) => self.random.between(area.start, area.end() as u32),
            (4, _) => start + self.random.between(1, 3),
            _ => self.odd_number(),
        }
    }

    fn odd_length(&mut self, start: u32, length: u32) -> u32 {
        // From the start to the end of the memory, wherever the start is.
        let to_end = self.model.memory_bytes().wrapping_sub(start);
        match self.random.below(6) {
            0 => 0,
            1 => self.random.between(1, 16),
            2 => to_end.wrapping_add(self.random.pick(&[0, 1, u32::MAX])),
            // The end wraps around to an allowed one.
            3 => length.wrapping_sub(start),
            4 => length.saturating_add(self.random.pick(&[1, 8, 64, 4_096, 32_768])),
            _ => self.odd_number(),
        }
    }

    /// A page size or a buffer size for an area of some length.
    fn unit(&mut self, step: u32, length: u32) -> u32 {
        if self.is_odd() {
            return match self.random.below(3) {
                0 => self.random.pick(&[0, 0, 1, 4, 6, 9, 4_097, 4_104, 8_192]),
                1 => length.saturating_add(self.random.pick(&[0, 4])),
                _ => self.odd_number(),
            };
        }
        let most = self.style.largest_unit.min(length / 3).max(8);
        let unit = match self.random.below(4) {
            0 => 8,
            1 => most,
            2 => self
                .random
                .pick(&[8, 12, 16, 24, 33, 60, 64, 100, 128])
                .min(most),
            _ => self.random.between(1, most),
        };
        unit.next_multiple_of(step)
    }

    /// The page size and the page count of a region; some numbers if there is
    /// none.
    pub fn pages(&self, id: u32) -> (u32, u32) {
        self.model.pages(id).unwrap_or((8, 1))
    }

    /// A size to ask a region for.
    fn size(&mut self, id: u32) -> u32 {
        let (page, pages) = self.pages(id);
        let all = page * pages;
        if self.is_odd() {
            return match self.random.below(4) {
                0 => 0,
                1 => all + self.random.between(0, page),
                2 => u32::MAX - self.random.between(0, page),
                _ => self.odd_number(),
            };
        }
        if self.random.chance(self.style.small_gets) {
            let wanted = self.random.between(1, pages.min(3));
            return wanted * page - self.random.pick(&[0, 0, 1, page - 1]);
        }
        let free = self.model.segments_held(id, false);
        match (self.random.below(5), self.random.pick_any(&free)) {
            (0, Some(segment)) => (segment.length + self.random.between(0, 2) - 1).min(all),
            (1, Some(segment)) => (2 * segment.length).min(all),
            (2, _) => (all - self.random.between(0, 2)).max(1),
            (3, _) => self.random.between(1, (all / 2).max(1)),
            _ => self.random.between(1, all),
        }
    }

    /// A size to ask for a held segment: any, or a little around what it has,
    /// a half of that, or all together with the free segment behind it.
    fn new_size(&mut self, id: u32, address: u32) -> u32 {
        let segments = self.model.segments(id);
        let place = segments.iter().position(|s| s.address == address && s.held);
        let Some(place) = place.filter(|_| self.random.chance(60)) else {
            return self.size(id);
        };
        let (page, _) = self.pages(id);
        let length = segments[place].length;
        let room = segments.get(place + 1).filter(|next| !next.held);
        let around = match self.random.below(4) {
            0 => length,
            1 => length + room.map_or(0, |next| next.length),
            2 => length / 2,
            _ => length + page * self.random.between(0, 3),
        };
        let more = around + self.random.pick(&[0, 1, 2, page, page + 1]);
        let less = page / 2 * self.random.between(0, 3);
        more.saturating_sub(less).max(1)
    }

    /// The arguments of a get.
    fn get(&mut self) -> Vec<u32> {
        let id = self.region_id();
        let alignment = self.alignment(id);
        let (size, wait) = (self.size_on(id, alignment), self.wait());
        let waiter = [self.task(), self.priority(), self.ticks()];
        [&[id, size, alignment, wait][..], &waiter].concat()
    }

    /// A size to ask a region for on an alignment: any, or about the most that it
    /// could serve with nothing held.
    fn size_on(&mut self, id: u32, alignment: u32) -> u32 {
        let segments = self.model.segments(id);
        let first = segments.first().filter(|_| self.random.chance(20));
        match (first, alignment) {
            (Some(first), 1..=MAX_ALIGNMENT) => {
                let before = first.address.next_multiple_of(alignment) - first.address;
                let (page, pages) = self.pages(id);
                let most = (page * pages).saturating_sub(before);
                (most + self.random.between(1, 3)).saturating_sub(2).max(1)
            }
            _ => self.size(id),
        }
    }

    /// An alignment to ask a region for: mostly 0, or one that is allowed.
    fn alignment(&mut self, id: u32) -> u32 {
        if self.is_odd() {
            return self.odd_alignment(id);
        }
        let by_halves = self.model.kind(id) == Some(Kind::Halves);
        if by_halves || !self.random.chance(self.style.alignments) {
            return 0;
        }
        self.wide_alignment(id)
    }

    /// A multiple of a region's page size that is allowed, mostly a small one.
    pub fn wide_alignment(&mut self, id: u32) -> u32 {
        let (page, pages) = self.pages(id);
        let most = MAX_ALIGNMENT / page;
        let multiple = match self.random.below(8) {
            0 => 1,
            1 => most,
            2 => self.random.between(1, most),
            3 => self.random.between(1, pages.min(most)),
            _ => self.random.between(2, 5),
        };
        page * multiple.min(most)
    }

    /// An alignment that is no multiple of the page size, one that is too
    /// large, or by halves any but 0.
    fn odd_alignment(&mut self, id: u32) -> u32 {
        let (page, _) = self.pages(id);
        let wide = self.wide_alignment(id);
        match self.random.below(6) {
            0 => wide,
            1 => wide + self.random.between(1, page) - page / 2,
            2 => self
                .random
                .pick(&[1, 2, 4, page / 2, page - 1, page + 1, page + 4]),
            // The first multiples above the largest.
            3 => (MAX_ALIGNMENT / page + self.random.between(1, 3)) * page,
            4 => self
                .random
                .pick(&[4_095, 4_096, 4_097, 8_192, 1 << 16, 1 << 31, u32::MAX]),
            _ => self.odd_number(),
        }
    }

    fn task(&mut self) -> u32 {
        let waiting = self.model.waiting_tasks();
        if self.is_odd() {
            return match (self.random.below(3), self.random.pick_any(&waiting)) {
                (0 | 1, Some(task)) => task,
                _ => self
                    .random
                    .pick(&[0, 17, 18, 32, 255, 256, 257, 1 << 31, u32::MAX]),
            };
        }
        let mut idle: Vec<u32> = (1..=TASKS as u32).collect();
        idle.retain(|task| !waiting.contains(task));
        self.random.pick_any(&idle).unwrap_or(1)
    }

    fn priority(&mut self) -> u32 {
        if self.is_odd() {
            return self.random.pick(&[0, 256, 257, 511, 1 << 31, u32::MAX]);
        }
        match self.random.below(3) {
            0 => self.random.between(1, 255),
            1 => self.random.between(1, 3),
            _ => self.random.pick(&[1, 2, 254, 255]),
        }
    }

    fn ticks(&mut self) -> u32 {
        match self.random.below(3) {
            0 => self.random.pick(&[0, 0, 0, 1, 255, 256, u32::MAX]),
            _ => self.random.between(0, 6),
        }
    }

    /// The id of a region and mostly the address of one of its held segments.
    fn segment(&mut self) -> [u32; 2] {
        let id = self.busy_region();
        self.segment_of(id)
    }

    /// The same of a region in which tasks wait.
    fn waited_segment(&mut self) -> [u32; 2] {
        let id = self.waited_region();
        self.segment_of(id)
    }

    fn segment_of(&mut self, id: u32) -> [u32; 2] {
        let held = self.model.segments_held(id, true);
        match self.random.pick_any(&held) {
            Some(segment) if !self.is_odd() => [id, segment.address],
            _ => [id, self.odd_segment(id)],
        }
    }

    fn odd_segment(&mut self, id: u32) -> u32 {
        let (page, _) = self.pages(id);
        let segments = self.model.segments(id);
        let Some(segment) = self.random.pick_any(&segments) else {
            return self.odd_number();
        };
        let address = segment.address;
        match self.random.below(5) {
            // Inside a segment, or right behind it.
            0 => address + self.random.pick(&[1, 4, 8, page, segment.length]),
            1 => address.wrapping_sub(self.random.pick(&[1, 4, 8, page])),
            2 => self
                .random
                .pick(&[address, address | 1 << 16, address | 1 << 31]),
            3 => address + segment.length - page,
            _ => self.odd_number(),
        }
    }

    /// Mostly the address of a held buffer of a partition.
    fn buffer(&mut self, id: u32) -> u32 {
        let held = self.model.held_buffers(id);
        match self.random.pick_any(&held) {
            Some(address) if !self.is_odd() => address,
            any => self.odd_buffer(id, any),
        }
    }

    fn odd_buffer(&mut self, id: u32, held: Option<u32>) -> u32 {
        let Some((start, size, count)) = self.model.buffers(id) else {
            return self.odd_number();
        };
        let held = held.unwrap_or(start);
        match self.random.below(5) {
            0 => held + self.random.pick(&[1, 2, 4, 8]),
            // Any buffer, the end, or the word before it.
            1 => start + size * self.random.between(0, count),
            2 => start + size * count - self.random.pick(&[0, 4]),
            3 => self
                .random
                .pick(&[start.wrapping_sub(size), held | 1 << 16, held | 1 << 31]),
            _ => self.odd_number(),
        }
    }

    fn write(&mut self) -> Call {
        let [id, address] = self.segment();
        let held = self.model.segments_held(id, true);
        let segment = held.iter().find(|segment| segment.address == address);
        let length = segment.map_or(4, |segment| segment.length / 4);
        let mut first = match self.random.below(4) {
            0 => 0,
            1 => length - self.random.between(0, length.min(2)),
            _ => self.random.between(0, length),
        };
        let rest = length - first;
        let count = match self.random.below(5) {
            0 => 0,
            1 => rest,
            2 => rest.min(40) + 1,
            _ => self.random.between(0, rest.min(40)),
        };
        if self.is_odd() {
            first = self.odd_number();
        }
        let words = (0..count).map(|_| self.random.word()).collect();
        Call::Write {
            id,
            address,
            first,
            words,
        }
    }
}

#[cfg(test)]
mod tests {
    use super::*;
    use std::collections::BTreeSet;

    /// Odd ids are of earlier and later generations, of empty slots and of no
    /// slot; the others are live.
    #[test]
    fn ids_of_all_sorts_are_made_up() {
        let mut model = Model::fresh();
        let create = Directive::CreateRegion.call(&[1, 4, 1_020, 64, 0]);
        for id in [1, 17] {
            model.call(&create);
            model.call(&Directive::DeleteRegion.call(&[id]));
        }
        assert_eq!(model.call(&create).value, 33);
        let mut random = Random::for_list(0, 0);
        let mut ids = |odd: u32| -> BTreeSet<u32> {
            let style = Style {
                odd,
                ..Style::default()
            };
            let mut author = Author {
                random: &mut random,
                style: &style,
                model: &model,
            };
            (0..5_000).map(|_| author.region_id()).collect()
        };
        assert_eq!(ids(0), [33].into());
        let odd = ids(100);
        let expected = [
            1, 17, 49, 65, 33, 2, 8, 0, 9, 15, 32, 41, 47, 1048609, 4294967295,
        ];
        for id in expected {
            assert!(odd.contains(&id), "{id}");
        }
    }

    /// Alignments are 0, multiples of the page size up to the largest, and odd
    /// ones; by halves all but 0 are odd.
    #[test]
    fn alignments_of_all_sorts_are_made_up() {
        let mut model = Model::fresh();
        for order in [0, 2] {
            let create = [1 + order, 4 + 4_096 * order, 1_020, 24, order];
            let answer = model.call(&Directive::CreateRegion.call(&create));
            assert_eq!(answer.status, 0);
        }
        let mut random = Random::for_list(0, 0);
        let mut made_up = |id: u32, odd: u32, alignments: u32| -> BTreeSet<u32> {
            let style = Style {
                odd,
                alignments,
                ..Style::default()
            };
            let mut author = Author {
                random: &mut random,
                style: &style,
                model: &model,
            };
            (0..5_000).map(|_| author.alignment(id)).collect()
        };
        assert_eq!(made_up(1, 0, 0), [0].into());
        assert_eq!(made_up(2, 0, 100), [0].into());
        let allowed = made_up(1, 0, 100);
        assert!(allowed.iter().all(|alignment| alignment % 24 == 0));
        assert_eq!(allowed.first(), Some(&24));
        assert_eq!(allowed.last(), Some(&4_080));
        for id in [1, 2] {
            let odd = made_up(id, 100, 0);
            for alignment in [
                1,
                12,
                23,
                25,
                48,
                4_095,
                4_096,
                4_097,
                4_104,
                1 << 31,
                u32::MAX,
            ] {
                assert!(odd.contains(&alignment), "{alignment}");
            }
        }
    }

    /// New names are those of the other kind, of deleted objects and others;
    /// or they are taken; odd ones are 0 or near a live one.
    #[test]
    fn names_of_all_sorts_are_made_up() {
        let mut model = Model::fresh();
        for (directive, arguments) in [
            (Directive::CreateRegion, &[100, 4, 100, 8, 0][..]),
            (Directive::CreateRegion, &[200, 1_024, 100, 8, 0]),
            (Directive::CreatePartition, &[300, 2_048, 16, 8]),
            (Directive::DeleteRegion, &[1]),
        ] {
            assert_eq!(model.call(&directive.call(arguments)).status, 0);
        }
        let mut random = Random::for_list(0, 0);
        let mut names = |create: Directive, odd: u32, taken_names: u32| -> BTreeSet<u32> {
            let style = Style {
                odd,
                taken_names,
                ..Style::default()
            };
            let mut author = Author {
                random: &mut random,
                style: &style,
                model: &model,
            };
            (0..5_000).map(|_| author.new_name(create)).collect()
        };
        let few: Vec<u32> = (1..=NAMES).collect();
        let with = |more: &[u32]| few.iter().chain(more).copied().collect();
        assert_eq!(names(Directive::CreateRegion, 0, 0), with(&[100, 300]));
        assert_eq!(names(Directive::CreatePartition, 0, 0), with(&[200]));
        assert_eq!(names(Directive::CreateRegion, 0, 100), [200].into());
        assert_eq!(names(Directive::CreatePartition, 0, 100), [300].into());
        let odd = names(Directive::CreateRegion, 100, 0);
        for name in [0, 201, 200 + 65_536, 200 + (1 << 31), u32::MAX] {
            assert!(odd.contains(&name), "{name}");
        }
    }
}
