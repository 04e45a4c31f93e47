//! An independent model of the rules.
//!
//! The model keeps no map words and no link words of its own. It keeps, for
//! each page of a region, which loan owns it, and for each partition the
//! queue of its free buffers. After a call it draws from these the words that
//! the rules put into the memory and into the record. So for every call it
//! gives the status, the value, the six information values, the notices, the
//! record and every word of the memory.
//!
//! Numbers that come from a caller are any `u32`. Sums of them are made in
//! `u64`, where they cannot wrap.

pub mod examples;
mod kind;
mod partition;
mod region;
mod slots;

use directives::words::*;
use directives::{Answer, Call, Notice};
pub use kind::Kind;
use partition::Partition;
pub use region::Segment;
use region::{Region, Waiter};
use slots::{Slot, Slots};

/// The bytes of a word.
const WORD: u64 = 4;
/// Page sizes are rounded up to a multiple of this.
const PAGE_STEP: u32 = 8;
const MAX_PAGE: u32 = 4_096;
const MAX_ALIGNMENT: u32 = 4_096;
const MAX_PRIORITY: u32 = 255;
const MIN_BUFFER: u32 = 8;

/// The bytes from `start` on, `length` of them.
#[derive(Clone, Copy, Debug, PartialEq, Eq)]
pub struct Area {
    pub start: u32,
    pub length: u32,
}

impl Area {
    pub fn new(start: u32, length: u32) -> Area {
        Area { start, length }
    }

    /// The byte after the last one.
    pub fn end(&self) -> u64 {
        u64::from(self.start) + u64::from(self.length)
    }

    fn overlaps(&self, other: &Area) -> bool {
        u64::from(self.start) < other.end() && u64::from(other.start) < self.end()
    }
}

/// What a refusal hands back: its status.
type Refusal = u32;

fn refuse_if(refused: bool, status: u32) -> Result<(), Refusal> {
    if refused {
        Err(status)
    } else {
        Ok(())
    }
}

/// All objects over one memory, and the memory.
#[derive(Clone, Debug)]
pub struct Model {
    memory: Vec<u32>,
    regions: Slots<Region>,
    partitions: Slots<Partition>,
}

/// The words.
impl Model {
    /// No object, over a memory of 1 to [`MEMORY_WORDS`] words.
    pub fn new(memory: Vec<u32>) -> Model {
        Model::from_record(&[0; RECORD_WORDS], &memory)
    }

    /// No object, over the largest memory, all zeros.
    pub fn fresh() -> Model {
        Model::new(vec![0; MEMORY_WORDS])
    }

    /// The state that a record and a memory describe. They must be sound.
    pub fn from_record(record: &[u32], memory: &[u32]) -> Model {
        assert!((1..=MEMORY_WORDS).contains(&memory.len()));
        let region = |index: usize| {
            let words = &record[region_at(index)..][..REGION_WORDS];
            let region = (words[NAME] != 0).then(|| Region::from_words(words, memory));
            Slot::new(index, words[GENERATION], region)
        };
        let partition = |index: usize| {
            let words = &record[partition_at(index)..][..PARTITION_WORDS];
            let partition = (words[NAME] != 0).then(|| Partition::from_words(words, memory));
            Slot::new(index, words[GENERATION], partition)
        };
        let mut model = Model {
            memory: memory.to_vec(),
            regions: Slots::new(region),
            partitions: Slots::new(partition),
        };
        let (places, _) = record[WAITERS_AT..].as_chunks();
        for place in places.iter().filter(|place| place[TASK] != 0) {
            model.put_waiter(*place);
        }
        model
    }

    /// Puts a waiter into its region's queue, by the words of a place. A call
    /// does so only where there is no room for it.
    pub fn put_waiter(&mut self, place: [u32; WAITER_WORDS]) {
        let [task, region, size, alignment, priority, ticks] = place;
        let region = self.regions.live_mut(region);
        let region = region.expect("a waiter's region is live");
        region.enqueue(Waiter::new(task, size, alignment, priority, ticks));
    }

    /// The memory, word by word.
    pub fn memory(&self) -> &[u32] {
        &self.memory
    }

    /// The record, word by word.
    pub fn record(&self) -> [u32; RECORD_WORDS] {
        let mut record = [0; RECORD_WORDS];
        for (index, slot) in self.regions.iter().enumerate() {
            let words = &mut record[region_at(index)..][..REGION_WORDS];
            if let Some(region) = &slot.object {
                words.copy_from_slice(&region.slot());
            }
            words[GENERATION] = slot.generation();
        }
        for (index, slot) in self.partitions.iter().enumerate() {
            let words = &mut record[partition_at(index)..][..PARTITION_WORDS];
            if let Some(partition) = &slot.object {
                words.copy_from_slice(&partition.slot());
            }
            words[GENERATION] = slot.generation();
        }
        let places = self.waiters().concat();
        record[WAITERS_AT..][..places.len()].copy_from_slice(&places);
        record
    }

    /// For each word of the memory, whether it is a map word of a live region
    /// or a link word of a free buffer. Every other word is free for anybody
    /// to write, as far as the rules are concerned.
    pub fn bookkeeping(&self) -> Vec<bool> {
        let mut marks = vec![false; self.memory.len()];
        for region in self.regions.objects() {
            marks[region.map..][..region.page_count()].fill(true);
        }
        for partition in self.partitions.objects() {
            for &address in &partition.chain {
                marks[address as usize / 4..][..2].fill(true);
            }
        }
        marks
    }

    /// A client's write of a word that is not a bookkeeping word.
    pub fn client_write(&mut self, word: usize, value: u32) {
        self.memory[word] = value;
    }
}

/// The directives. Each makes its checks in the order of the rules; the first
/// that fails gives the status, and then nothing has changed.
impl Model {
    /// Makes a call.
    pub fn call(&mut self, call: &Call) -> Answer {
        if call.has_wrong_choice() {
            return Answer::status(status::INTERNAL_ERROR);
        }
        self.perform(call).unwrap_or_else(Answer::status)
    }

    fn perform(&mut self, call: &Call) -> Result<Answer, Refusal> {
        match *call {
            Call::CreateRegion {
                name,
                start,
                length,
                page,
                order,
            } => self.create_region(name, Area::new(start, length), page, order),
            Call::IdentRegion { name } => self.regions.ident(name),
            Call::DeleteRegion { id } => self.delete_region(id),
            Call::Get {
                id,
                size,
                alignment,
                wait,
                task,
                priority,
                ticks,
            } => {
                let waiter = Waiter::new(task, size, alignment, priority, ticks);
                self.get(id, size, alignment, (wait == 1).then_some(waiter))
            }
            Call::Return { id, address } => self.return_segment(id, address),
            Call::Size { id, address } => self.size(id, address),
            Call::Resize { id, address, size } => self.resize(id, address, size),
            Call::Information { id } => self.information(id),
            Call::CreatePartition {
                name,
                start,
                length,
                size,
            } => self.create_partition(name, Area::new(start, length), size),
            Call::IdentPartition { name } => self.partitions.ident(name),
            Call::DeletePartition { id } => self.delete_partition(id),
            Call::GetBuffer { id } => self.get_buffer(id),
            Call::ReturnBuffer { id, address } => self.return_buffer(id, address),
            Call::Tick => Ok(self.tick()),
            Call::Read { id, address } => Ok(self.read(id, address)),
            Call::Write {
                id,
                address,
                first,
                ref words,
            } => self.write(id, address, first, words),
        }
    }

    fn create_region(
        &mut self,
        name: u32,
        area: Area,
        page: u32,
        order: u32,
    ) -> Result<Answer, Refusal> {
        self.regions.refuse_name(name)?;
        refuse_if(area.start == 0, status::INVALID_ADDRESS)?;
        refuse_if(self.is_past_memory(&area), status::INVALID_ADDRESS)?;
        refuse_if(page == 0 || page > MAX_PAGE, status::INVALID_SIZE)?;
        let page = page.next_multiple_of(PAGE_STEP);
        let region = Region::new(name, area, page, order);
        refuse_if(region.page_count() == 0, status::INVALID_SIZE)?;
        refuse_if(self.is_taken(&area), status::INVALID_ADDRESS)?;
        let slot = self.regions.vacant()?;

        region.draw(&mut self.memory);
        Ok(Answer::value(slot.fill(region)))
    }

    fn delete_region(&mut self, id: u32) -> Result<Answer, Refusal> {
        let region = self.regions.live(id)?;
        refuse_if(region.anything_held(), status::RESOURCE_IN_USE)?;
        self.regions.delete(id);
        Ok(Answer::default())
    }

    fn get(
        &mut self,
        id: u32,
        size: u32,
        alignment: u32,
        waiter: Option<Waiter>,
    ) -> Result<Answer, Refusal> {
        refuse_if(size == 0, status::INVALID_SIZE)?;
        let region = self.regions.live(id)?;
        region.refuse_alignment(alignment)?;
        let is_too_large = !region.could_lend(size, alignment);
        refuse_if(is_too_large, status::INVALID_SIZE)?;
        if let Some(Waiter { task, priority, .. }) = waiter {
            let is_task = (1..=TASKS as u32).contains(&task);
            refuse_if(!is_task, status::INVALID_NUMBER)?;
            let is_priority = (1..=MAX_PRIORITY).contains(&priority);
            refuse_if(!is_priority, status::INVALID_PRIORITY)?;
            let waits = self.waiting_tasks().contains(&task);
            refuse_if(waits, status::INCORRECT_STATE)?;
        }

        let region = self.regions.live_mut(id)?;
        if let Some(address) = region.lend(size, alignment) {
            region.draw(&mut self.memory);
            return Ok(Answer::value(address));
        }
        region.enqueue(waiter.ok_or(status::UNSATISFIED)?);
        Ok(Answer::status(status::WAITING))
    }

    fn return_segment(&mut self, id: u32, address: u32) -> Result<Answer, Refusal> {
        let region = self.regions.live_mut(id)?;
        let (page, pages) = region.held_at(address)?;
        region.take_back(page, page + pages);
        let notices = region.serve();
        region.draw(&mut self.memory);
        Ok(Answer::notices(notices))
    }

    fn size(&self, id: u32, address: u32) -> Result<Answer, Refusal> {
        let words = self.segment_words(id, address)?;
        Ok(Answer::value(4 * words.len() as u32))
    }

    fn resize(&mut self, id: u32, address: u32, size: u32) -> Result<Answer, Refusal> {
        refuse_if(size == 0, status::INVALID_SIZE)?;
        let region = self.regions.live_mut(id)?;
        let (page, old) = region.held_at(address)?;
        let mut answer = Answer::value(old as u32 * region.page);
        let new = region.pages_for(size);
        if !region.resize(page + old, page + new) {
            answer.status = status::UNSATISFIED;
            return Ok(answer);
        }
        answer.notices = region.serve();
        region.draw(&mut self.memory);
        Ok(answer)
    }

    fn information(&self, id: u32) -> Result<Answer, Refusal> {
        Ok(Answer {
            information: self.regions.live(id)?.information(),
            ..Answer::default()
        })
    }

    fn tick(&mut self) -> Answer {
        let regions = self.regions.objects_mut();
        let mut notices: Vec<Notice> = regions.flat_map(Region::tick).collect();
        if !notices.is_empty() {
            for region in self.regions.objects_mut() {
                notices.extend(region.serve());
                region.draw(&mut self.memory);
            }
        }
        Answer::notices(notices)
    }

    fn create_partition(&mut self, name: u32, area: Area, size: u32) -> Result<Answer, Refusal> {
        self.partitions.refuse_name(name)?;
        refuse_if(area.start == 0, status::INVALID_ADDRESS)?;
        refuse_if(!area.start.is_multiple_of(4), status::INVALID_ADDRESS)?;
        refuse_if(self.is_past_memory(&area), status::INVALID_ADDRESS)?;
        refuse_if(area.length == 0 || size == 0, status::INVALID_SIZE)?;
        refuse_if(area.length < size, status::INVALID_SIZE)?;
        refuse_if(!size.is_multiple_of(4), status::INVALID_SIZE)?;
        refuse_if(size < MIN_BUFFER, status::INVALID_SIZE)?;
        refuse_if(self.is_taken(&area), status::INVALID_ADDRESS)?;
        let slot = self.partitions.vacant()?;

        let partition = Partition::new(name, area, size);
        partition.draw(&mut self.memory);
        Ok(Answer::value(slot.fill(partition)))
    }

    fn delete_partition(&mut self, id: u32) -> Result<Answer, Refusal> {
        let partition = self.partitions.live(id)?;
        let anything_held = partition.chain.len() != partition.count();
        refuse_if(anything_held, status::RESOURCE_IN_USE)?;
        self.partitions.delete(id);
        Ok(Answer::default())
    }

    fn get_buffer(&mut self, id: u32) -> Result<Answer, Refusal> {
        let partition = self.partitions.live_mut(id)?;
        let address = partition.chain.pop_front().ok_or(status::UNSATISFIED)?;
        self.memory[address as usize / 4..][..2].fill(0);
        partition.draw(&mut self.memory);
        Ok(Answer::value(address))
    }

    fn return_buffer(&mut self, id: u32, address: u32) -> Result<Answer, Refusal> {
        let partition = self.partitions.live_mut(id)?;
        refuse_if(!partition.is_held(address), status::INVALID_ADDRESS)?;
        partition.chain.push_back(address);
        partition.draw(&mut self.memory);
        Ok(Answer::default())
    }

    fn read(&self, id: u32, address: u32) -> Answer {
        Answer {
            words: self.segment_words(id, address).unwrap_or(&[]).to_vec(),
            ..Answer::default()
        }
    }

    fn write(&mut self, id: u32, address: u32, first: u32, words: &[u32]) -> Result<Answer, u32> {
        let length = self.segment_words(id, address)?.len();
        let past = first as usize + words.len() > length;
        refuse_if(past, status::INVALID_SIZE)?;
        let word = address as usize / 4 + first as usize;
        self.memory[word..word + words.len()].copy_from_slice(words);
        Ok(Answer::default())
    }

    /// The memory words of a held segment.
    fn segment_words(&self, id: u32, address: u32) -> Result<&[u32], Refusal> {
        let region = self.regions.live(id)?;
        let (_, pages) = region.held_at(address)?;
        let words = pages * region.page as usize / 4;
        Ok(&self.memory[address as usize / 4..][..words])
    }

    fn is_past_memory(&self, area: &Area) -> bool {
        area.end() > u64::from(self.memory_bytes())
    }

    fn is_taken(&self, area: &Area) -> bool {
        self.areas().iter().any(|other| other.overlaps(area))
    }
}

/// Looking from outside, for whoever makes up calls and client writes.
impl Model {
    pub fn memory_bytes(&self) -> u32 {
        4 * self.memory.len() as u32
    }

    /// The areas of all live objects: regions first, then by rising slot.
    pub fn areas(&self) -> Vec<Area> {
        let regions = self.regions.objects().map(|region| region.area);
        let partitions = self.partitions.objects().map(|p| p.area);
        regions.chain(partitions).collect()
    }

    /// The id of each region's slot, which an empty one keeps for the next
    /// region, and whether it is live.
    pub fn region_slots(&self) -> Vec<(u32, bool)> {
        self.regions.ids()
    }

    /// The same of the partitions' slots.
    pub fn partition_slots(&self) -> Vec<(u32, bool)> {
        self.partitions.ids()
    }

    /// The live ids of regions, by rising slot.
    pub fn region_ids(&self) -> Vec<u32> {
        live_ids(self.region_slots())
    }

    /// The live ids of partitions, by rising slot.
    pub fn partition_ids(&self) -> Vec<u32> {
        live_ids(self.partition_slots())
    }

    /// The names of the live regions, by rising slot.
    pub fn region_names(&self) -> Vec<u32> {
        self.regions.names()
    }

    /// The names of the live partitions, by rising slot.
    pub fn partition_names(&self) -> Vec<u32> {
        self.partitions.names()
    }

    /// The names of regions that were deleted, of each slot the last.
    pub fn old_region_names(&self) -> Vec<u32> {
        self.regions.old_names()
    }

    /// The same of partitions.
    pub fn old_partition_names(&self) -> Vec<u32> {
        self.partitions.old_names()
    }

    /// The area of a live region.
    pub fn area(&self, id: u32) -> Option<Area> {
        Some(self.regions.live(id).ok()?.area)
    }

    /// The kind of a live region.
    pub fn kind(&self, id: u32) -> Option<Kind> {
        Some(self.regions.live(id).ok()?.kind)
    }

    /// The page size and the page count of a live region.
    pub fn pages(&self, id: u32) -> Option<(u32, u32)> {
        let region = self.regions.live(id).ok()?;
        Some((region.page, region.page_count() as u32))
    }

    /// All segments of a live region by rising address.
    pub fn segments(&self, id: u32) -> Vec<Segment> {
        let segments = self.regions.live(id).map(Region::segments);
        segments.unwrap_or_default()
    }

    /// The held segments of a live region, or its free ones.
    pub fn segments_held(&self, id: u32, held: bool) -> Vec<Segment> {
        let mut segments = self.segments(id);
        segments.retain(|segment| segment.held == held);
        segments
    }

    /// The words of the waiters' places that are used: lowest slot first, then
    /// in the queue's order.
    pub fn waiters(&self) -> Vec<[u32; WAITER_WORDS]> {
        let slots = self.regions.iter();
        let regions = slots.filter_map(|slot| Some((slot.id, slot.object.as_ref()?)));
        regions.flat_map(|(id, region)| region.places(id)).collect()
    }

    /// The tasks that wait, each with its region's id, in the same order.
    pub fn waiting(&self) -> Vec<(u32, u32)> {
        let places = self.waiters().into_iter();
        places.map(|place| (place[TASK], place[REGION])).collect()
    }

    /// The tasks that wait, in the same order.
    pub fn waiting_tasks(&self) -> Vec<u32> {
        self.waiting().iter().map(|(task, _)| *task).collect()
    }

    /// The ids of the regions with room for the first in their queue, by rising
    /// slot. No list of calls leaves one so.
    pub fn regions_to_serve(&self) -> Vec<u32> {
        let can_serve = |slot: &&Slot<Region>| slot.object.as_ref().is_some_and(Region::can_serve);
        let slots = self.regions.iter().filter(can_serve);
        slots.map(|slot| slot.id).collect()
    }

    /// The start, the buffer size and the number of buffers of a live partition.
    pub fn buffers(&self, id: u32) -> Option<(u32, u32, u32)> {
        let partition = self.partitions.live(id).ok()?;
        let count = partition.count() as u32;
        Some((partition.area.start, partition.size, count))
    }

    /// The addresses of a live partition's free buffers, the front first.
    pub fn free_buffers(&self, id: u32) -> Vec<u32> {
        let chain = self.partitions.live(id).map(|partition| &partition.chain);
        chain.map_or(Vec::new(), |chain| chain.iter().copied().collect())
    }

    /// The addresses of a live partition's held buffers, rising.
    pub fn held_buffers(&self, id: u32) -> Vec<u32> {
        let held = self.partitions.live(id).map(Partition::held);
        held.unwrap_or_default()
    }
}

fn live_ids(slots: Vec<(u32, bool)>) -> Vec<u32> {
    let live = slots.into_iter().filter(|(_, live)| *live);
    live.map(|(id, _)| id).collect()
}
