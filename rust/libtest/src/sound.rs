//! An independent check of a raw record and memory: whether they are sound,
//! and if not, which clause is broken first.
//!
//! Nothing is allocated, and each word is looked at about once, so that the
//! check can also stand for an ordinary one in the benchmarks.

use directives::words::*;
use std::fmt;

macro_rules! clauses {
    ($($Clause:ident => $title:literal,)*) => {
        /// What is asked of a sound record and memory, one clause for each
        /// thing that can be wrong.
        #[derive(Clone, Copy, Debug, PartialEq, Eq, PartialOrd, Ord)]
        pub enum Clause {
            $($Clause,)*
        }

        impl Clause {
            pub const ALL: &[Clause] = &[$(Clause::$Clause),*];

            /// What is wrong where the clause is broken.
            pub fn title(self) -> &'static str {
                match self {
                    $(Clause::$Clause => $title,)*
                }
            }
        }
    };
}

clauses! {
    RecordLength => "record not of 208 words",
    MemoryLength => "memory not of 1 to 16,384 words",
    OrderChoice => "order above 3",
    RegionSlotNotZero => "empty region slot not zero but for its generation",
    EmptyRegionGeneration => "empty region slot's generation above 65,536",
    RegionGeneration => "region's generation above 65,535",
    RegionStartZero => "region's start 0",
    RegionPastMemory => "region past the memory",
    PageNotRounded => "page 0 or not a multiple of 8",
    PageTooLarge => "page above 4,096",
    RegionWithoutPage => "region without a page",
    PartitionSlotNotZero => "empty partition slot not zero but for its generation",
    EmptyPartitionGeneration => "empty partition slot's generation above 65,536",
    PartitionGeneration => "partition's generation above 65,535",
    PartitionStartZero => "partition's start 0",
    PartitionStartUnaligned => "partition's start not a multiple of 4",
    PartitionPastMemory => "partition past the memory",
    BufferSizeUnaligned => "buffer size not a multiple of 4",
    BufferSizeTooSmall => "buffer size below 8",
    PartitionWithoutBuffer => "partition's length below its buffer size",
    RegionsOfOneName => "two regions of one name",
    PartitionsOfOneName => "two partitions of one name",
    RegionsOverlap => "two regions overlap",
    PartitionsOverlap => "two partitions overlap",
    RegionAndPartitionOverlap => "a region and a partition overlap",
    SegmentWithoutPage => "map: segment of no page",
    SegmentPastPages => "map: segment past the pages",
    InnerMapWordNotZero => "map: inner word not 0",
    FreeSegmentsAdjoin => "map: two free segments adjoin",
    BlockNotAPower => "map by halves: block not of a power of two pages",
    BlockMisplaced => "map by halves: block not at a multiple of its length",
    FreeHalves => "map by halves: two free halves of one block",
    EndsOfEmptyChain => "chain: no free buffer, but an end not 0",
    FreeCountTooLarge => "chain: more free buffers than buffers",
    ChainTooShort => "chain: ends before the free count",
    NotABuffer => "chain: address of no buffer",
    BackLink => "chain: back link wrong",
    ChainTooLong => "chain: goes on after the free count",
    Rear => "chain: last buffer not the rear",
    PlaceNotZero => "unused waiter's place not zero",
    UsedPlaceAfterUnused => "used waiter's place after an unused one",
    TaskNumber => "waiter: task above 16",
    TaskTwice => "waiter: task waits twice",
    WaiterRegionId => "waiter: region's id of no slot",
    WaiterRegionEmpty => "waiter: region's slot empty",
    WaiterRegionGeneration => "waiter: region's id of another generation",
    NothingHeld => "waiter: nothing held in the region",
    WaiterSizeZero => "waiter: size 0",
    WaiterSizeTooLarge => "waiter: size above the region's pages",
    AlignmentByHalves => "waiter: alignment not 0, by halves",
    AlignmentNotMultiple => "waiter: alignment not a multiple of the page",
    AlignmentTooLarge => "waiter: alignment above 4,096",
    AlignmentWithoutPlace => "waiter: no place on its alignment in all pages",
    WaiterPriority => "waiter: priority not 1 to 255",
    RegionsNotAscending => "queue: regions' slots not ascending",
    PriorityOrder => "queue: priorities not ascending",
}

impl fmt::Display for Clause {
    fn fmt(&self, formatter: &mut fmt::Formatter) -> fmt::Result {
        formatter.write_str(self.title())
    }
}

/// Where the pages of a region lie.
#[derive(Clone, Copy, Debug, Default, PartialEq, Eq)]
pub struct Layout {
    /// The memory word of the map's first word.
    pub map: usize,
    /// The address of page 0.
    pub first_page: u32,
    /// How many pages there are.
    pub pages: u32,
}

/// How many pages, from one at an address on, come before the first whose
/// address is a multiple of an alignment that is allowed. Each page is on 0,
/// which stands for the page size.
pub fn pages_before(address: u32, page: u32, alignment: u32) -> u32 {
    match alignment {
        0 => 0,
        _ => (address.next_multiple_of(alignment) - address) / page,
    }
}

/// The layout of an area that lies inside the memory, for a region of some
/// order. `page` must be a rounded page size.
pub fn layout(start: u32, length: u32, page: u32, order: u32) -> Layout {
    let map = (start + 3) & !3;
    let end = start + length;
    let page_0 = |pages: u32| (map + 4 * pages).div_ceil(page) * page;
    // Without the gap in front of page 0 so many would fit; the gap takes at
    // most the room of one of them.
    let mut pages = end.saturating_sub(map) / (page + 4);
    if pages > 0 && page_0(pages) + pages * page > end {
        pages -= 1;
    }
    // Fewer fit too, behind a shorter map.
    if is_by_halves(order) && pages > 0 {
        pages = 1 << pages.ilog2();
    }
    Layout {
        map: map as usize / 4,
        first_page: page_0(pages),
        pages,
    }
}

fn ask(condition: bool, clause: Clause) -> Result<(), Clause> {
    if condition {
        Ok(())
    } else {
        Err(clause)
    }
}

fn all_zero(words: &[u32]) -> bool {
    words.iter().all(|&word| word == 0)
}

/// Checks a record and a memory, and gives the first clause that is broken.
pub fn check(record: &[u32], memory: &[u32]) -> Result<(), Clause> {
    ask(record.len() == RECORD_WORDS, Clause::RecordLength)?;
    ask(
        (1..=MEMORY_WORDS).contains(&memory.len()),
        Clause::MemoryLength,
    )?;
    let bytes = 4 * memory.len() as u32;

    for index in 0..SLOTS {
        check_region(&record[region_at(index)..][..REGION_WORDS], bytes)?;
    }
    for index in 0..SLOTS {
        check_partition(&record[partition_at(index)..][..PARTITION_WORDS], bytes)?;
    }
    check_names(record, region_at, Clause::RegionsOfOneName)?;
    check_names(record, partition_at, Clause::PartitionsOfOneName)?;
    check_overlaps(record)?;

    let mut layouts = [Layout::default(); SLOTS];
    let mut held = [false; SLOTS];
    for index in 0..SLOTS {
        let region = &record[region_at(index)..][..REGION_WORDS];
        if region[NAME] != 0 {
            let order = region[ORDER];
            let layout = layout(region[START], region[LENGTH], region[PAGE], order);
            ask(layout.pages > 0, Clause::RegionWithoutPage)?;
            let map = &memory[layout.map..][..layout.pages as usize];
            held[index] = check_map(map, is_by_halves(order))?;
            layouts[index] = layout;
        }
    }
    for index in 0..SLOTS {
        let partition = &record[partition_at(index)..][..PARTITION_WORDS];
        if partition[NAME] != 0 {
            check_chain(partition, memory)?;
        }
    }
    check_waiters(record, &layouts, &held)
}

fn is_inside(start: u32, length: u32, bytes: u32) -> bool {
    start.checked_add(length).is_some_and(|end| end <= bytes)
}

/// Checks what a slot of either kind has, and gives whether it is live. The
/// clauses: empty but not zero, and too high a generation, empty and live.
fn check_slot(slot: &[u32], [not_zero, empty, live]: [Clause; 3]) -> Result<bool, Clause> {
    let generation = slot[GENERATION];
    if slot[NAME] == 0 {
        ask(all_zero(&slot[START..]), not_zero)?;
        ask(generation <= GENERATIONS, empty)?;
        return Ok(false);
    }
    ask(generation < GENERATIONS, live)?;
    Ok(true)
}

fn check_region(slot: &[u32], bytes: u32) -> Result<(), Clause> {
    use Clause::*;
    ask(slot[ORDER] < ORDERS, OrderChoice)?;
    let clauses = [RegionSlotNotZero, EmptyRegionGeneration, RegionGeneration];
    if !check_slot(slot, clauses)? {
        return Ok(());
    }
    let (start, length, page) = (slot[START], slot[LENGTH], slot[PAGE]);
    ask(start != 0, RegionStartZero)?;
    ask(is_inside(start, length, bytes), RegionPastMemory)?;
    ask(page != 0 && page % 8 == 0, PageNotRounded)?;
    ask(page <= 4_096, PageTooLarge)
}

fn check_partition(slot: &[u32], bytes: u32) -> Result<(), Clause> {
    use Clause::*;
    let clauses = [
        PartitionSlotNotZero,
        EmptyPartitionGeneration,
        PartitionGeneration,
    ];
    if !check_slot(slot, clauses)? {
        return Ok(());
    }
    let (start, length, size) = (slot[START], slot[LENGTH], slot[SIZE]);
    ask(start != 0, PartitionStartZero)?;
    ask(start % 4 == 0, PartitionStartUnaligned)?;
    ask(is_inside(start, length, bytes), PartitionPastMemory)?;
    ask(size % 4 == 0, BufferSizeUnaligned)?;
    ask(size >= 8, BufferSizeTooSmall)?;
    ask(length >= size, PartitionWithoutBuffer)
}

/// Checks that no two live slots of a kind have one name.
fn check_names(record: &[u32], slot_at: fn(usize) -> usize, clause: Clause) -> Result<(), Clause> {
    for second in 1..SLOTS {
        let name = record[slot_at(second) + NAME];
        let has_name = |first: usize| record[slot_at(first) + NAME] == name;
        ask(name == 0 || !(0..second).any(has_name), clause)?;
    }
    Ok(())
}

/// Checks that no two live areas overlap; each lies inside the memory.
fn check_overlaps(record: &[u32]) -> Result<(), Clause> {
    // The starts and ends of the live areas, regions first.
    let mut areas = [(0, 0); 2 * SLOTS];
    let mut count = 0;
    let mut regions = 0;
    for index in 0..2 * SLOTS {
        let at = if index < SLOTS {
            region_at(index)
        } else {
            partition_at(index - SLOTS)
        };
        if record[at + NAME] != 0 {
            let start = record[at + START];
            areas[count] = (start, start + record[at + LENGTH]);
            count += 1;
            if index < SLOTS {
                regions += 1;
            }
        }
    }
    for second in 1..count {
        let (start, end) = areas[second];
        for (first, &(other_start, other_end)) in areas[..second].iter().enumerate() {
            if start < other_end && other_start < end {
                return Err(match (first < regions, second < regions) {
                    (true, true) => Clause::RegionsOverlap,
                    (false, false) => Clause::PartitionsOverlap,
                    _ => Clause::RegionAndPartitionOverlap,
                });
            }
        }
    }
    Ok(())
}

/// Checks a region's map and gives whether anything is held.
fn check_map(map: &[u32], by_halves: bool) -> Result<bool, Clause> {
    let mut rest = map;
    let mut anything_held = false;
    // The pages of the segment before, if that is free, or 0.
    let mut free_before = 0;
    while let Some(&word) = rest.first() {
        let pages = (word / 2) as usize;
        let held = word % 2 == 1;
        ask(pages > 0, Clause::SegmentWithoutPage)?;
        ask(pages <= rest.len(), Clause::SegmentPastPages)?;
        if by_halves {
            check_block(map.len() - rest.len(), pages, held, free_before)?;
        } else {
            ask(held || free_before == 0, Clause::FreeSegmentsAdjoin)?;
        }
        ask(all_zero(&rest[1..pages]), Clause::InnerMapWordNotZero)?;
        anything_held |= held;
        free_before = if held { 0 } else { pages };
        rest = &rest[pages..];
    }
    Ok(anything_held)
}

/// Checks a block by halves: its first page, its pages, whether it is held, and
/// the pages of a free block before it.
fn check_block(first: usize, pages: usize, held: bool, free_before: usize) -> Result<(), Clause> {
    ask(pages.is_power_of_two(), Clause::BlockNotAPower)?;
    // The region has a power of two pages, so such a block is got by halving.
    ask(first.is_multiple_of(pages), Clause::BlockMisplaced)?;
    let is_high_half = !first.is_multiple_of(2 * pages);
    let is_with_low = !held && is_high_half && free_before == pages;
    ask(!is_with_low, Clause::FreeHalves)
}

/// Checks the chain of a partition whose area and sizes are as they must be.
///
/// As every back link is checked, no buffer can be met twice: it would have
/// two buffers before it.
fn check_chain(slot: &[u32], memory: &[u32]) -> Result<(), Clause> {
    let (start, length, size) = (slot[START], slot[LENGTH], slot[SIZE]);
    let (front, rear, free) = (slot[FRONT], slot[REAR], slot[FREE]);
    let buffers = length / size;
    // One division tells a buffer: the offset is in the buffers' bytes, and a
    // multiple of their size.
    let bytes = buffers * size;
    if free == 0 {
        return ask(front == 0 && rear == 0, Clause::EndsOfEmptyChain);
    }
    ask(free <= buffers, Clause::FreeCountTooLarge)?;
    let (mut before, mut address) = (0, front);
    for _ in 0..free {
        ask(address != 0, Clause::ChainTooShort)?;
        let offset = address.wrapping_sub(start);
        let is_buffer = address >= start && offset < bytes && offset % size == 0;
        ask(is_buffer, Clause::NotABuffer)?;
        let word = address as usize / 4;
        ask(memory[word + 1] == before, Clause::BackLink)?;
        before = address;
        address = memory[word];
    }
    ask(address == 0, Clause::ChainTooLong)?;
    ask(before == rear, Clause::Rear)
}

fn check_waiters(
    record: &[u32],
    layouts: &[Layout; SLOTS],
    held: &[bool; SLOTS],
) -> Result<(), Clause> {
    let mut tasks_seen = 0_u32;
    let mut unused_seen = false;
    let (mut last_index, mut last_priority) = (0, 0);
    for place in 0..TASKS {
        let waiter = &record[waiter_at(place)..][..WAITER_WORDS];
        let (task, priority) = (waiter[TASK], waiter[PRIORITY]);
        if task == 0 {
            ask(all_zero(waiter), Clause::PlaceNotZero)?;
            unused_seen = true;
            continue;
        }
        ask(!unused_seen, Clause::UsedPlaceAfterUnused)?;
        ask(task as usize <= TASKS, Clause::TaskNumber)?;
        ask(tasks_seen & 1 << task == 0, Clause::TaskTwice)?;
        tasks_seen |= 1 << task;
        let index = waiters_region(record, waiter[REGION])?;
        let slot = &record[region_at(index)..][..REGION_WORDS];
        ask(held[index], Clause::NothingHeld)?;
        check_wanted(slot, &layouts[index], waiter[WANTED], waiter[ALIGNMENT])?;
        ask((1..=255).contains(&priority), Clause::WaiterPriority)?;
        ask(last_index <= index, Clause::RegionsNotAscending)?;
        if is_by_priority(slot[ORDER]) && last_index == index {
            ask(last_priority <= priority, Clause::PriorityOrder)?;
        }
        (last_index, last_priority) = (index, priority);
    }
    Ok(())
}

/// Checks that a region could serve some bytes on an alignment if nothing of it
/// were held.
fn check_wanted(slot: &[u32], layout: &Layout, size: u32, alignment: u32) -> Result<(), Clause> {
    use Clause::*;
    let page = slot[PAGE];
    ask(size > 0, WaiterSizeZero)?;
    // By halves this is rounded up, but not above the pages, a power of two.
    let pages = size.div_ceil(page);
    ask(pages <= layout.pages, WaiterSizeTooLarge)?;
    let by_halves = is_by_halves(slot[ORDER]);
    ask(alignment == 0 || !by_halves, AlignmentByHalves)?;
    ask(alignment <= 4_096, AlignmentTooLarge)?;
    ask(alignment.is_multiple_of(page), AlignmentNotMultiple)?;
    // The lowest place has the most pages behind it.
    let before = pages_before(layout.first_page, page, alignment);
    ask(before + pages <= layout.pages, AlignmentWithoutPlace)
}

/// The index of a waiter's region, whose id must be live.
fn waiters_region(record: &[u32], id: u32) -> Result<usize, Clause> {
    let index = slot_of(id).ok_or(Clause::WaiterRegionId)?;
    let slot = &record[region_at(index)..][..REGION_WORDS];
    ask(slot[NAME] != 0, Clause::WaiterRegionEmpty)?;
    let same = slot[GENERATION] == generation_of(id);
    ask(same, Clause::WaiterRegionGeneration)?;
    Ok(index)
}
