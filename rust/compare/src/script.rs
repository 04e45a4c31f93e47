//! A script that is being made up, call by call.
//!
//! Each call is also made on the model, to know which ids are live and which
//! addresses are held. What is right is never read from it; the two programs
//! that are compared run on their own.

use author::alignments::MAX_ALIGNMENT;
use author::{Author, Random, Style, EDGES};
use directives::words::{is_by_halves, TASKS};
use directives::{choices, Answer, Call, Directive, MAX_SCRIPT, SCRIPT};
use model::{Model, Segment};

/// No call has more bytes than this.
const LONGEST_CALL: usize = 128;

/// Page sizes that are allowed.
const PAGES: [u32; 18] = [
    1, 7, 8, 9, 16, 24, 33, 60, 64, 100, 128, 255, 512, 1_000, 1_024, 2_048, 4_095, 4_096,
];

/// One way to go on with a script.
#[derive(Clone, Copy)]
pub enum Step {
    /// A call of one directive.
    One(Directive),
    /// A call with all arguments from the edges.
    Edges,
    /// A get of a few pages, so that a region is cut into many segments.
    LittleGet,
    /// Such a get that is then cut down to one page, so that a small free
    /// segment stays behind it.
    TrimmedGet,
    /// Tasks that wait in a region of which all was held, and a part of it
    /// given back: too little for the first of them, who waits a few ticks.
    BlockedQueue,
    /// All of a region is held, and two of its segments of one length come
    /// back that adjoin, but are no halves of one block; then both together
    /// are asked for.
    Neighbours,
    /// A get of a few pages of a region on a wide alignment, and then one that
    /// fits into the room before it, a resize of it, or its return.
    AlignedGet,
    /// All of a region is held, and a first task waits for a little of it on a
    /// wide alignment, mostly with others behind it; then segments come back in
    /// any order, or are made smaller.
    AlignedQueue,
    /// A get whose alignment is mostly refused, and now and then something else
    /// too.
    WrongAlignment,
    /// Returning all that a region holds, and deleting it.
    ClearRegion,
    /// Returning all that a partition holds, and deleting it.
    ClearPartition,
    /// The same of a region, and a new one, so that a slot is used again.
    RenewRegion,
    /// The same of a partition.
    RenewPartition,
    /// The object in the lowest slot is deleted, and the name of one in a
    /// higher slot is asked for in its place: a region, or a partition.
    HigherName(Directive),
    /// Taking the buffers that a partition has left, and one more.
    DrainPartition,
    /// A region whose area ends at, or one byte around, the end of its last
    /// page; all of it is used, and mostly it is deleted again.
    Layout,
}

pub struct Script {
    pub random: Random,
    pub style: Style,
    model: Model,
    text: Vec<u8>,
    limit: usize,
}

impl Script {
    /// An empty script that takes calls until about `limit` bytes are full.
    pub fn new(random: Random, limit: usize) -> Script {
        Script {
            random,
            style: Style::default(),
            model: Model::fresh(),
            text: Vec::new(),
            limit: limit.min(MAX_SCRIPT),
        }
    }

    fn has_room(&self) -> bool {
        self.text.len() + LONGEST_CALL <= self.limit
    }

    /// How much of the room is used, in hundredths.
    pub fn fill_percent(&self) -> usize {
        self.text.len() * 100 / self.limit
    }

    pub fn into_text(self) -> Vec<u8> {
        self.text
    }

    /// Adds a call to the script and gives the model's answer. Without room
    /// for it, nothing happens.
    pub fn add(&mut self, call: Call) -> Option<Answer> {
        if !self.has_room() {
            return None;
        }
        self.text.extend_from_slice(call.to_script().as_bytes());
        Some(self.model.call(&call))
    }

    fn author(&mut self) -> Author<'_> {
        Author {
            random: &mut self.random,
            style: &self.style,
            model: &self.model,
        }
    }

    /// Takes steps by their weights until the script is full.
    pub fn fill(&mut self, steps: &[(u32, Step)]) {
        while self.has_room() {
            let step = self.random.weighted(steps);
            self.take(step);
        }
    }

    /// Takes a step between `low` and `high` times.
    pub fn repeat(&mut self, low: u32, high: u32, step: Step) {
        for _ in 0..self.random.between(low, high) {
            self.take(step);
        }
    }

    pub fn take(&mut self, step: Step) {
        match step {
            Step::One(directive) => self.one(directive),
            Step::Edges => self.edges(),
            Step::LittleGet => drop(self.little_get()),
            Step::TrimmedGet => self.trimmed_get(),
            Step::BlockedQueue => drop(self.blocked_queue()),
            Step::Neighbours => drop(self.neighbours()),
            Step::AlignedGet => drop(self.aligned_get()),
            Step::AlignedQueue => drop(self.aligned_queue()),
            Step::WrongAlignment => self.wrong_alignment(),
            Step::ClearRegion => {
                let id = self.author().busy_region();
                self.clear_region(id);
            }
            Step::ClearPartition => {
                let id = self.author().busy_partition();
                self.clear_partition(id);
            }
            Step::RenewRegion => {
                self.take(Step::ClearRegion);
                self.one(Directive::CreateRegion);
            }
            Step::RenewPartition => {
                self.take(Step::ClearPartition);
                self.one(Directive::CreatePartition);
            }
            Step::HigherName(create) => drop(self.higher_name(create)),
            Step::DrainPartition => self.drain_partition(),
            Step::Layout => self.layout(),
        }
    }

    fn one(&mut self, directive: Directive) {
        let call = self.author().call_of(directive);
        self.add(call.clone());
        // Giving back twice is refused.
        let gives_back = matches!(directive, Directive::Return | Directive::ReturnBuffer);
        if gives_back && self.random.chance(self.style.odd) {
            self.add(call);
        }
    }

    fn edges(&mut self) {
        let directive = self.random.pick(SCRIPT);
        let id = match directive {
            Directive::ReturnBuffer => self.author().partition_id(),
            _ => self.author().region_id(),
        };
        let live = self.random.chance(60);
        let keys = directive.keys().iter();
        let argument = |key: &&str| match (*key, choices(key)) {
            ("id", _) if live => id,
            (_, Some(choices)) => self.random.between(0, choices - 1),
            _ => self.random.pick(&EDGES),
        };
        let arguments: Vec<u32> = keys.map(argument).collect();
        self.add(directive.call(&arguments));
    }

    /// Gives the id of the region and the address, if there was one.
    fn little_get(&mut self) -> Option<(u32, u32)> {
        let id = self.author().region_id();
        let (page, _) = self.author().pages(id);
        let size = self.random.between(1, page * 3);
        let answer = self.add(get_of(id, size))?;
        (answer.status == 0).then_some((id, answer.value))
    }

    fn trimmed_get(&mut self) {
        if let Some((id, address)) = self.little_get() {
            let (page, _) = self.author().pages(id);
            let size = self.random.between(1, page);
            self.add(Call::Resize { id, address, size });
        }
    }

    fn blocked_queue(&mut self) -> Option<()> {
        let id = self.author().region_id();
        let (page, pages) = self.author().pages(id);
        // First one page, so that the rest can be given back.
        self.add(get_of(id, page));
        let held = self.hold_all(id);
        let given = self.random.pick_any(&held)?;
        let back = given.length / page;
        let ticks = self.random.between(1, 2);
        self.wait(id, [page * pages.min(back + 1), 0, 1, ticks])?;
        for _ in 0..self.random.between(1, 3) {
            let size = self.random.between(1, page * back);
            let ticks = self.random.between(0, 3);
            self.wait(id, [size, 0, 2, ticks])?;
        }
        let address = given.address;
        if back > 1 && self.random.chance(30) {
            let size = self.random.between(1, page);
            self.add(Call::Resize { id, address, size })?;
        } else {
            self.add(Call::Return { id, address })?;
        }
        Some(())
    }

    /// Asks for all that is free of a region, and gives what is held then.
    fn hold_all(&mut self, id: u32) -> Vec<Segment> {
        for free in self.model.segments_held(id, false) {
            self.add(get_of(id, free.length));
        }
        self.model.segments_held(id, true)
    }

    fn neighbours(&mut self) -> Option<()> {
        let id = self.author().region_id();
        let held = self.hold_all(id);
        let start = held.first()?.address;
        let are_no_halves = |two: &&[Segment]| {
            let places = (two[0].address - start) / two[0].length;
            two[0].length == two[1].length && places % 2 == 1
        };
        let pairs: Vec<&[Segment]> = held.windows(2).filter(are_no_halves).collect();
        let two = self.random.pick_any(&pairs)?;
        for Segment { address, .. } in two {
            let address = *address;
            self.add(Call::Return { id, address })?;
        }
        let both = 2 * two[0].length;
        if self.random.chance(self.style.waits) {
            self.wait(id, [both, 0, 1, 1])?;
        } else {
            self.add(get_of(id, both))?;
        }
        Some(())
    }

    /// A get of an idle task that may wait: size, alignment, priority, ticks.
    fn wait(&mut self, id: u32, asked: [u32; 4]) -> Option<Answer> {
        let [size, alignment, priority, ticks] = asked;
        let waiting = self.model.waiting_tasks();
        let task = (1..=TASKS as u32).find(|task| !waiting.contains(task))?;
        let get = [id, size, alignment, 1, task, priority, ticks];
        self.add(Directive::Get.call(&get))
    }

    fn aligned_get(&mut self) -> Option<()> {
        let id = self.author().region_id();
        let (page, _) = self.author().pages(id);
        let alignment = self.author().wide_alignment(id);
        let size = self.random.between(1, page * 3);
        let get = Directive::Get.call(&[id, size, alignment, 0, 0, 0, 0]);
        let answer = self.add(get)?;
        let address = (answer.status == 0).then_some(answer.value)?;
        let segments = self.model.segments(id);
        let before = segments.iter().find(|s| s.address + s.length == address);
        let room = before.filter(|before| !before.held)?.length;
        match self.random.below(4) {
            0 => {
                let size = self.random.between(1, room);
                self.add(get_of(id, size))
            }
            1 => self.add(Call::Return { id, address }),
            _ => {
                let size = self.random.between(1, size + room);
                self.add(Call::Resize { id, address, size })
            }
        }?;
        Some(())
    }

    fn aligned_queue(&mut self) -> Option<()> {
        let id = self.author().region_id();
        let (page, _) = self.author().pages(id);
        for _ in 0..self.random.between(1, 4) {
            let pages = self.random.between(1, 3);
            self.add(get_of(id, page * pages));
        }
        let held = self.hold_all(id);
        if self.random.chance(30) {
            let ticks = self.random.between(1, 2);
            let all = held.iter().map(|segment| segment.length).sum();
            self.wait(id, [all, 0, 1, ticks])?;
        }
        self.aligned_waits(id)?;
        for _ in 0..self.random.between(1, 3) {
            self.give_back(id)?;
        }
        Some(())
    }

    /// A task that waits for a little of a region on a wide alignment, and
    /// others behind it.
    fn aligned_waits(&mut self, id: u32) -> Option<()> {
        let (page, _) = self.author().pages(id);
        let alignment = self.author().wide_alignment(id);
        let size = self.random.between(1, page * 2);
        let ticks = self.random.between(0, 3);
        self.wait(id, [size, alignment, 2, ticks])?;
        for _ in 0..self.random.between(0, 2) {
            let size = self.random.between(1, page * 2);
            let alignment = self.random.pick(&[0, 0, page, 2 * page]);
            self.wait(id, [size, alignment, 3, 0])?;
        }
        Some(())
    }

    /// A held segment of a region comes back, or is made smaller.
    fn give_back(&mut self, id: u32) -> Option<()> {
        let (page, _) = self.author().pages(id);
        let held = self.model.segments_held(id, true);
        let segment = self.random.pick_any(&held)?;
        let address = segment.address;
        if segment.length > page && self.random.chance(40) {
            let size = self.random.between(1, segment.length - page);
            self.add(Call::Resize { id, address, size })?;
        } else {
            self.add(Call::Return { id, address })?;
        }
        Some(())
    }

    fn wrong_alignment(&mut self) {
        let mut get = self.author().call_of(Directive::Get);
        let id = get.arguments()[0];
        let (page, pages) = self.author().pages(id);
        let most = MAX_ALIGNMENT / page;
        let wrong = match self.random.below(4) {
            0 => page * self.random.between(1, pages) + self.random.between(1, page - 1),
            1 => (most + self.random.between(1, 4)) * page,
            2 => most * page,
            _ => self.author().wide_alignment(id),
        };
        if let Call::Get { alignment, .. } = &mut get {
            *alignment = wrong;
        }
        self.add(get);
    }

    fn clear_region(&mut self, id: u32) {
        for segment in self.model.segments_held(id, true) {
            let address = segment.address;
            self.add(Call::Return { id, address });
        }
        self.add(Call::DeleteRegion { id });
    }

    fn clear_partition(&mut self, id: u32) {
        for address in self.model.held_buffers(id) {
            self.add(Call::ReturnBuffer { id, address });
        }
        self.add(Call::DeletePartition { id });
    }

    fn higher_name(&mut self, create: Directive) -> Option<()> {
        let names = match create.is_of_partitions() {
            true => {
                self.clear_partition(*self.model.partition_ids().first()?);
                self.model.partition_names()
            }
            false => {
                self.clear_region(*self.model.region_ids().first()?);
                self.model.region_names()
            }
        };
        let mut arguments = self.author().call_of(create).arguments();
        arguments[0] = self.random.pick_any(&names)?;
        self.add(create.call(&arguments))?;
        Some(())
    }

    fn drain_partition(&mut self) {
        let id = self.author().partition_id();
        let free = self.model.free_buffers(id).len();
        let most = self.random.pick(&[10, 40, 40, 1_500]);
        for _ in 0..free.min(most) + 1 {
            self.add(Call::GetBuffer { id });
        }
    }

    /// A large region with small pages.
    pub fn create_fine_region(&mut self) {
        let call = Call::CreateRegion {
            name: self.author().new_name(Directive::CreateRegion),
            start: self.random.between(1, 5_000),
            length: self.random.between(40_000, 60_000),
            page: self.random.between(1, 16),
            order: self.author().order(),
        };
        self.add(call);
    }

    fn layout(&mut self) {
        let page = self.random.pick(&PAGES);
        let order = self.author().order();
        let (start, length) = self.exact_area(page.next_multiple_of(8), order);
        let call = Call::CreateRegion {
            name: self.author().new_name(Directive::CreateRegion),
            start,
            length,
            page: match self.random.chance(self.style.odd) {
                true => self.random.pick(&[0, 4_097, u32::MAX]),
                false => page,
            },
            order,
        };
        let answer = self.add(call);
        let id = answer.filter(|answer| answer.status == 0);
        if let Some(id) = id.map(|answer| answer.value) {
            self.use_layout(id);
        }
    }

    /// The start and the length of an area for some pages, to the byte.
    fn exact_area(&mut self, page: u32, order: u32) -> (u32, u32) {
        let memory = self.model.memory_bytes();
        let most = (memory / (page + 4)).max(1);
        let few = self.random.chance(75);
        let mut pages = self
            .random
            .between(1, if few { most.min(40) } else { most });
        if is_by_halves(order) && self.random.chance(75) {
            pages = pages.next_power_of_two();
        }
        let start = match self.random.below(3) {
            0 => self.random.between(1, 64),
            1 => self.random.between(1, 16) * page + self.random.between(0, 8) - 4,
            _ => self.random.between(1, memory),
        };
        let map_end = start.next_multiple_of(4) + 4 * pages;
        let end = match self.random.below(8) {
            0 => memory,
            _ => map_end.next_multiple_of(page) + pages * page,
        };
        let end = end + self.random.between(0, 2) - 1;
        let length = match self.random.below(20) {
            // The end wraps around to an allowed one.
            0 => end.wrapping_sub(start).wrapping_sub(start),
            _ => end.saturating_sub(start),
        };
        (start, length)
    }

    /// Looks at a new region, asks for all of it and for more.
    fn use_layout(&mut self, id: u32) {
        self.add(Call::Information { id });
        let (page, pages) = self.author().pages(id);
        let all = page * pages;
        for size in [all + 1, 1, (all - page).max(1), 1] {
            self.add(get_of(id, size));
        }
        if self.random.chance(85) {
            self.clear_region(id);
        }
    }
}

/// A get without an alignment and without waiting.
fn get_of(id: u32, size: u32) -> Call {
    Directive::Get.call(&[id, size, 0, 0, 0, 0, 0])
}

#[cfg(test)]
mod tests {
    use super::*;

    #[test]
    fn a_full_script_takes_no_call() {
        let mut script = Script::new(Random::for_list(0, 0), LONGEST_CALL);
        assert!(script.add(Call::Tick).is_some());
        assert!(script.add(Call::Tick).is_none());
        assert_eq!(script.into_text(), b"call=tick\n");
    }
}
