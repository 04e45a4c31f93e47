//! The raw words that go into a call, read and changed by hand.

use crate::sound::{layout, pages_before, Layout};
use author::Random;
use directives::words::*;

/// The words that go into a call.
#[derive(Clone, Debug)]
pub struct State {
    pub record: Vec<u32>,
    pub memory: Vec<u32>,
    /// The length of the answer that is passed.
    pub answer_words: usize,
}

pub const MAX: u32 = u32::MAX;

/// A segment: the memory word of the first page's map word, the pages, and
/// whether it is held.
pub type Segment = (usize, u32, bool);

/// Adds blocks that fill so many pages, a power of two: so many of a hundred
/// are halved, and so many of a hundred of the others are held.
fn add_blocks(
    random: &mut Random,
    pages: u32,
    [halved, held]: [u32; 2],
    blocks: &mut Vec<(u32, bool)>,
) {
    if pages == 1 || !random.chance(halved) {
        blocks.push((pages, random.chance(held)));
        return;
    }
    let from = blocks.len();
    for _ in 0..2 {
        add_blocks(random, pages / 2, [halved, held], blocks);
    }
    // Two free halves are one block.
    if blocks[from..] == [(pages / 2, false); 2] {
        blocks.truncate(from);
        blocks.push((pages, false));
    }
}

/// Reading a sound state.
impl State {
    pub fn bytes(&self) -> u32 {
        4 * self.memory.len() as u32
    }

    /// The slots of the regions that are live, or of those that are empty.
    pub fn regions(&self, live: bool) -> Vec<usize> {
        let slots = (0..SLOTS).map(region_at);
        slots.filter(|&at| (self.record[at] != 0) == live).collect()
    }

    pub fn partitions(&self, live: bool) -> Vec<usize> {
        let slots = (0..SLOTS).map(partition_at);
        slots.filter(|&at| (self.record[at] != 0) == live).collect()
    }

    /// The id of a region, or of the next one in an empty slot.
    pub fn id(&self, region: usize) -> u32 {
        id_of(region / REGION_WORDS, self.record[region + GENERATION])
    }

    /// The slot of a waiter's region.
    pub fn region_of(&self, waiter: usize) -> Option<usize> {
        slot_of(self.record[waiter + REGION]).map(region_at)
    }

    /// The used places of the queue.
    pub fn waiters(&self) -> Vec<usize> {
        let places = (0..TASKS).map(waiter_at);
        places.filter(|&at| self.record[at] != 0).collect()
    }

    /// The first unused place of the queue.
    pub fn unused_place(&self) -> Option<usize> {
        (0..TASKS).map(waiter_at).find(|&at| self.record[at] == 0)
    }

    pub fn layout(&self, region: usize) -> Layout {
        layout(
            self.record[region + START],
            self.record[region + LENGTH],
            self.record[region + PAGE],
            self.record[region + ORDER],
        )
    }

    pub fn is_by_halves(&self, region: usize) -> bool {
        is_by_halves(self.record[region + ORDER])
    }

    /// The slots of the live regions by halves, or of those by pages.
    pub fn regions_by(&self, halves: bool) -> Vec<usize> {
        let mut regions = self.regions(true);
        regions.retain(|&region| self.is_by_halves(region) == halves);
        regions
    }

    /// The segments of a region, by rising address.
    pub fn segments(&self, region: usize) -> Vec<Segment> {
        let layout = self.layout(region);
        let end = layout.map + layout.pages as usize;
        let mut segments = Vec::new();
        let mut at = layout.map;
        while at < end {
            let word = self.memory[at];
            segments.push((at, word / 2, word % 2 == 1));
            at += word as usize / 2;
        }
        segments
    }

    pub fn anything_held(&self, region: usize) -> bool {
        self.segments(region).iter().any(|&(_, _, held)| held)
    }

    /// The addresses of a partition's free buffers in the chain's order.
    pub fn chain(&self, partition: usize) -> Vec<u32> {
        let mut chain = Vec::new();
        let mut address = self.record[partition + FRONT];
        while address != 0 {
            chain.push(address);
            address = self.memory[address as usize / 4];
        }
        chain
    }

    /// The link word of a buffer to the next one.
    pub fn next(&mut self, address: u32) -> &mut u32 {
        &mut self.memory[address as usize / 4]
    }

    /// The link word of a buffer to the one before.
    pub fn before(&mut self, address: u32) -> &mut u32 {
        &mut self.memory[address as usize / 4 + 1]
    }

    /// Puts a chain of the partition's buffers into the words.
    pub fn draw_chain(&mut self, partition: usize, chain: &[u32]) {
        let mut before = 0;
        for (place, &address) in chain.iter().enumerate() {
            *self.next(address) = chain.get(place + 1).copied().unwrap_or(0);
            *self.before(address) = before;
            before = address;
        }
        self.record[partition + FRONT] = chain.first().copied().unwrap_or(0);
        self.record[partition + REAR] = before;
        self.record[partition + FREE] = chain.len() as u32;
    }

    /// The starts and ends of the live areas, with their slots, by rising
    /// start.
    pub fn areas(&self) -> Vec<(u32, u32, usize)> {
        let mut slots = self.regions(true);
        slots.extend(self.partitions(true));
        let area = |at: usize| {
            let (start, length) = (self.record[at + START], self.record[at + LENGTH]);
            (start, start + length, at)
        };
        let mut areas: Vec<_> = slots.into_iter().map(area).collect();
        areas.sort();
        areas
    }

    /// Adds a waiter to a region in which something is held; the state stays
    /// sound. Gives its place.
    pub fn plant_waiter(&mut self, random: &mut Random) -> Option<usize> {
        let mut regions = self.regions(true);
        regions.retain(|&region| self.anything_held(region));
        let region = random.pick_any(&regions)?;
        self.plant_waiter_in(random, region)
    }

    pub fn plant_waiter_in(&mut self, random: &mut Random, region: usize) -> Option<usize> {
        let [size, alignment] = self.some_wanted(random, region);
        let priority = random.pick(&[1, 2, 3, 254, 255]);
        let by_priority = is_by_priority(self.record[region + ORDER]);
        let is_ahead = |at: usize| {
            let (other, urgency) = (self.region_of(at), self.record[at + PRIORITY]);
            other < Some(region) || other == Some(region) && (!by_priority || urgency <= priority)
        };
        let ahead = self.waiters().iter().filter(|&&at| is_ahead(at)).count();
        let ticks = random.pick(&[0, 1, 2, MAX]);
        let words = [self.id(region), size, alignment, priority, ticks];
        self.insert_waiter(random, ahead, words)
    }

    /// The most bytes that a region could serve on an alignment with nothing
    /// held.
    pub fn most_on(&self, region: usize, alignment: u32) -> u32 {
        let (page, layout) = (self.record[region + PAGE], self.layout(region));
        let before = pages_before(layout.first_page, page, alignment);
        layout.pages.saturating_sub(before) * page
    }

    /// The multiples of a region's page size that are allowed as alignments.
    pub fn multiples(&self, region: usize) -> Vec<u32> {
        let page = self.record[region + PAGE];
        (1..=4_096 / page).map(|multiple| multiple * page).collect()
    }

    /// An alignment that a get of a region may have: 0, or a multiple that a
    /// page of it is on.
    fn some_alignment(&self, random: &mut Random, region: usize) -> u32 {
        if self.is_by_halves(region) || random.chance(50) {
            return 0;
        }
        let mut multiples = self.multiples(region);
        multiples.retain(|alignment| self.most_on(region, *alignment) > 0);
        random.pick_any(&multiples).unwrap_or(0)
    }

    /// A size and an alignment that a region could serve with nothing held.
    fn some_wanted(&self, random: &mut Random, region: usize) -> [u32; 2] {
        let alignment = self.some_alignment(random, region);
        let most = self.most_on(region, alignment);
        [random.between(1, most), alignment]
    }

    /// The most bytes for which a region has room now, on an alignment.
    fn room_on(&self, region: usize, alignment: u32) -> u32 {
        let (page, layout) = (self.record[region + PAGE], self.layout(region));
        let room = |(at, pages, held): Segment| {
            let address = layout.first_page + (at - layout.map) as u32 * page;
            let before = pages_before(address, page, alignment);
            match held {
                true => 0,
                false => pages.saturating_sub(before) * page,
            }
        };
        let segments = self.segments(region).into_iter();
        segments.map(room).max().unwrap_or(0)
    }

    /// Sees to it that something of a region is held and something free, if its
    /// last segment has two pages; the state stays sound.
    fn hold_and_free(&mut self, region: usize) {
        let segments = self.segments(region);
        let (at, pages, _) = segments[segments.len() - 1];
        let all_same = segments.iter().all(|&(_, _, held)| held == segments[0].2);
        let free = if self.is_by_halves(region) {
            pages / 2
        } else {
            1
        };
        if all_same && pages > 1 {
            let held = pages - free;
            self.memory[at] = 2 * held + 1;
            self.memory[at + held as usize] = 2 * free;
        }
    }

    /// Puts segments, each with its pages and whether it is held, into the map
    /// of a region.
    pub fn draw_map(&mut self, region: usize, segments: &[(u32, bool)]) {
        let layout = self.layout(region);
        let map = &mut self.memory[layout.map..][..layout.pages as usize];
        map.fill(0);
        let mut page = 0;
        for &(pages, held) in segments {
            map[page] = 2 * pages + u32::from(held);
            page += pages as usize;
        }
    }

    /// Puts any blocks into the map of a region by halves; the state stays
    /// sound, so that something is held where tasks wait.
    pub fn draw_blocks(&mut self, random: &mut Random, region: usize) {
        let halved = random.pick(&[40, 60, 80]);
        let held = random.pick(&[30, 60, 90]);
        let mut blocks = Vec::new();
        add_blocks(
            random,
            self.layout(region).pages,
            [halved, held],
            &mut blocks,
        );
        let waits = |at: &usize| self.region_of(*at) == Some(region);
        blocks[0].1 |= self.waiters().iter().any(waits);
        self.draw_map(region, &blocks);
    }

    /// A region by halves with at least so many pages. Mostly any blocks are
    /// put into its map; the state stays sound.
    pub fn some_blocks(&mut self, random: &mut Random, least: u32) -> Option<usize> {
        let mut regions = self.regions_by(true);
        regions.retain(|&region| self.layout(region).pages >= least);
        let region = random.pick_any(&regions)?;
        if random.chance(70) {
            self.draw_blocks(random, region);
        }
        Some(region)
    }

    /// Held blocks of one size, at least four, that fill a region by halves.
    pub fn equal_blocks(&self, random: &mut Random, region: usize) -> Vec<(u32, bool)> {
        let pages = self.layout(region).pages;
        let block = pages >> random.between(2, pages.ilog2());
        vec![(block, true); (pages / block) as usize]
    }

    /// Two segments of a region that adjoin and are wanted, by the number of
    /// the first page and by themselves.
    pub fn some_neighbours(
        &self,
        random: &mut Random,
        region: usize,
        wanted: impl Fn(u32, &[Segment; 2]) -> bool,
    ) -> Option<[Segment; 2]> {
        let map = self.layout(region).map;
        let segments = self.segments(region);
        let pairs = segments.windows(2).map(|two| [two[0], two[1]]);
        let wanted = pairs.filter(|two| wanted((two[0].0 - map) as u32, two));
        random.pick_any(&wanted.collect::<Vec<_>>())
    }

    /// Adds a waiter for whom there is room in front of each queue; the state
    /// stays sound. Gives nothing if no region can have one.
    pub fn plant_first_waiters(&mut self, random: &mut Random) -> Option<()> {
        let mut planted = None;
        for region in self.regions(true) {
            self.hold_and_free(region);
            let alignment = self.some_alignment(random, region);
            let alignments = [alignment, 0].into_iter();
            let mut with_room = alignments.filter(|of| self.room_on(region, *of) > 0);
            let alignment = with_room.next().filter(|_| self.anything_held(region));
            let Some(alignment) = alignment else {
                continue;
            };
            let size = random.between(1, self.room_on(region, alignment));
            let is_ahead = |at: usize| self.region_of(at) < Some(region);
            let ahead = self.waiters().iter().filter(|&&at| is_ahead(at)).count();
            let ticks = random.pick(&[0, 2, MAX]);
            let words = [self.id(region), size, alignment, 1, ticks];
            planted = self.insert_waiter(random, ahead, words).or(planted);
        }
        planted.map(|_| ())
    }

    /// Sees to it that of a region by pages only single pages are free that are
    /// on no multiple of two, that a first task waits for one that is, and one
    /// behind it for any; the state stays sound.
    pub fn plant_stopped_waiter(&mut self, random: &mut Random) -> Option<()> {
        let mut regions = self.regions_by(false);
        // Twice the page size must be an alignment, and a page on it.
        regions.retain(|&region| self.record[region + PAGE] <= 2_048);
        regions.retain(|&region| self.layout(region).pages >= 2);
        let region = random.pick_any(&regions)?;
        let (page, layout) = (self.record[region + PAGE], self.layout(region));
        // Every second page is off it, from the first one or the second one on.
        let off = (layout.first_page / page + 1) % 2;
        let some = off + 2 * random.between(0, (layout.pages - 1 - off) / 2);
        let is_held = |of: u32| of % 2 != off || (of != some && random.chance(60));
        let segments = (0..layout.pages).map(is_held).map(|held| (1, held));
        let segments: Vec<(u32, bool)> = segments.collect();
        self.draw_map(region, &segments);
        let is_ahead = |at: &&usize| self.region_of(**at) < Some(region);
        let ahead = self.waiters().iter().filter(is_ahead).count();
        for (place, alignment) in [(ahead, 2 * page), (ahead + 1, 0)] {
            let words = [self.id(region), random.between(1, page), alignment, 1, 0];
            self.insert_waiter(random, place, words)?;
        }
        Some(())
    }

    /// Adds a waiter behind so many others, by the words behind its task, and
    /// gives its place.
    fn insert_waiter(
        &mut self,
        random: &mut Random,
        ahead: usize,
        words: [u32; WAITER_WORDS - 1],
    ) -> Option<usize> {
        let end = self.unused_place()?;
        let used = self.waiters();
        let waits = |task: u32| used.iter().any(|&at| self.record[at + TASK] == task);
        let tasks: Vec<u32> = (1..=TASKS as u32).filter(|&task| !waits(task)).collect();
        let task = random.pick_any(&tasks)?;
        let at = waiter_at(ahead);
        self.record.copy_within(at..end, at + WAITER_WORDS);
        self.record[at + TASK] = task;
        self.record[at + REGION..at + WAITER_WORDS].copy_from_slice(&words);
        Some(at)
    }

    /// Sets a region's generation, and the id of its waiters.
    fn set_generation(&mut self, region: usize, generation: u32) {
        let mut queue = self.waiters();
        queue.retain(|&at| self.region_of(at) == Some(region));
        self.record[region + GENERATION] = generation;
        for at in queue {
            self.record[at + REGION] = self.id(region);
        }
    }

    /// Sets the generation of every slot, by whether it is live; the state
    /// stays sound where these are allowed.
    pub fn set_generations(&mut self, mut generation: impl FnMut(bool) -> u32) {
        for live in [false, true] {
            for at in self.regions(live) {
                self.set_generation(at, generation(live));
            }
            for at in self.partitions(live) {
                self.record[at + GENERATION] = generation(live);
            }
        }
    }

    /// Sees to it that tasks wait in two regions, of which the one in the lower
    /// slot has the higher id; the state stays sound.
    pub fn plant_two_queues(&mut self, random: &mut Random) -> Option<()> {
        let regions = self.regions(true);
        let (low, high) = (*regions.first()?, *regions.last()?);
        for region in [low, high] {
            let (first, ..) = self.segments(region)[0];
            if !self.anything_held(region) {
                self.memory[first] += 1;
            }
            let waits = |at: &usize| self.region_of(*at) == Some(region);
            if !self.waiters().iter().any(waits) {
                self.plant_waiter_in(random, region)?;
            }
        }
        let generation = self.record[high + GENERATION] + random.between(1, 3);
        self.set_generation(low, generation);
        (low < high).then_some(())
    }

    /// A used place of the queue; one is added if there is none.
    pub fn some_waiter(&mut self, random: &mut Random) -> Option<usize> {
        if self.waiters().is_empty() || random.chance(20) {
            self.plant_waiter(random);
        }
        random.pick_any(&self.waiters())
    }

    /// A used place of the queue of a region by halves, or of one by pages, with
    /// the region's slot; one is added if there is none.
    pub fn some_waiter_by(&mut self, random: &mut Random, halves: bool) -> Option<(usize, usize)> {
        let regions = self.regions_by(halves);
        let mut waiters = self.waiters();
        waiters.retain(|at| self.region_of(*at).is_some_and(|of| regions.contains(&of)));
        if waiters.is_empty() {
            let region = random.pick_any(&regions)?;
            if !self.anything_held(region) {
                let (first, ..) = self.segments(region)[0];
                self.memory[first] += 1;
            }
            waiters.push(self.plant_waiter_in(random, region)?);
        }
        let at = random.pick(&waiters);
        Some((at, self.region_of(at)?))
    }

    /// The names in some slots.
    pub fn names(&self, slots: &[usize]) -> Vec<u32> {
        slots.iter().map(|&at| self.record[at + NAME]).collect()
    }

    /// A name that is in none of some slots, from one on.
    pub fn new_name(&self, slots: &[usize], least: u32) -> Option<u32> {
        let names = self.names(slots);
        (least..=MAX).find(|name| !names.contains(name))
    }

    /// Adds a partition with all its buffers held, and gives its slot.
    pub fn plant_partition(&mut self, start: u32, length: u32) -> Option<usize> {
        let at = *self.partitions(false).first()?;
        self.record[at + NAME] = self.new_name(&self.partitions(true), 77)?;
        let words = [start, length, 8, 0, 0, 0];
        self.record[at + START..at + PARTITION_WORDS].copy_from_slice(&words);
        Some(at)
    }

    /// Adds a region of an order, with nothing held, to a part of the memory,
    /// writes its map, and gives its slot.
    pub fn plant_region(&mut self, start: u32, length: u32, order: u32) -> Option<usize> {
        let at = *self.regions(false).first()?;
        let place = layout(start, length, 8, order);
        if place.pages == 0 {
            return None;
        }
        self.record[at + NAME] = self.new_name(&self.regions(true), 78)?;
        let words = [start, length, 8, order];
        self.record[at + START..at + REGION_WORDS].copy_from_slice(&words);
        self.draw_map(at, &[(place.pages, false)]);
        Some(at)
    }

    /// A gap of at least so many bytes between the live areas, from a
    /// multiple of 4 on.
    pub fn gap(&self, least: u32) -> Option<(u32, u32)> {
        let mut low = 4;
        let end = (self.bytes(), 0, 0);
        for (start, next, _) in self.areas().into_iter().chain([end]) {
            if start >= low && start - low >= least {
                return Some((low, start));
            }
            low = next.next_multiple_of(4).max(low);
        }
        None
    }
}
