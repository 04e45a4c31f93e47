//! A region: for each page which loan owns it, and the queue of waiters.

use crate::kind::{is_free, Kind, NOBODY};
use crate::slots::Named;
use crate::{refuse_if, Area, MAX_ALIGNMENT, WORD};
use directives::words::{is_by_priority, status, REGION_WORDS, WAITER_WORDS};
use directives::Notice;
use std::collections::VecDeque;

#[derive(Clone, Debug, PartialEq, Eq)]
pub struct Waiter {
    pub task: u32,
    pub size: u32,
    /// As it was asked for: 0 stays 0.
    pub alignment: u32,
    pub priority: u32,
    /// Ticks left; 0 waits for ever.
    pub ticks: u32,
}

impl Waiter {
    pub fn new(task: u32, size: u32, alignment: u32, priority: u32, ticks: u32) -> Waiter {
        Waiter {
            task,
            size,
            alignment,
            priority,
            ticks,
        }
    }
}

/// A free or held segment: by pages a longest run of pages with one owner, by
/// halves a block.
#[derive(Clone, Copy, Debug, PartialEq, Eq)]
pub struct Segment {
    pub address: u32,
    /// In bytes.
    pub length: u32,
    pub held: bool,
}

#[derive(Clone, Debug)]
pub struct Region {
    pub name: u32,
    pub area: Area,
    pub page: u32,
    order: u32,
    pub kind: Kind,
    /// The memory word of the map's first word.
    pub map: usize,
    /// The address of page 0.
    first_page: u32,
    /// The owner of each page: [`NOBODY`], or the number of a loan.
    owners: Vec<u32>,
    /// The highest number of a loan so far.
    loans: u32,
    pub queue: VecDeque<Waiter>,
}

impl Named for Region {
    fn name(&self) -> u32 {
        self.name
    }
}

impl Region {
    /// A region with all pages free, in an area that lies inside the memory.
    /// The map comes first, with one word a page, and then the pages, each on
    /// a multiple of the page size. There are as many pages as the kind allows,
    /// for as long as all fits.
    pub fn new(name: u32, area: Area, page: u32, order: u32) -> Region {
        let size = u64::from(page);
        let map = u64::from(area.start).next_multiple_of(WORD);
        let page_0 = |pages: u64| (map + WORD * pages).next_multiple_of(size);
        let fits = |pages: &u64| page_0(*pages) + size * pages <= area.end();
        let kind = Kind::of(order);
        let pages = kind.count(fits);
        Region {
            name,
            area,
            page,
            order,
            kind,
            map: (map / WORD) as usize,
            first_page: page_0(pages) as u32,
            owners: vec![NOBODY; pages as usize],
            loans: 0,
            queue: VecDeque::new(),
        }
    }

    /// The region that a slot and the map in the memory describe, with nobody
    /// in its queue.
    pub fn from_words(slot: &[u32], memory: &[u32]) -> Region {
        let [name, _, start, length, page, order] = slot else {
            unreachable!("a slot has so many words");
        };
        let area = Area::new(*start, *length);
        let mut region = Region::new(*name, area, *page, *order);
        let mut first = 0;
        while first < region.owners.len() {
            let word = memory[region.map + first];
            let end = first + (word / 2) as usize;
            if word % 2 == 1 {
                region.own(first, end);
            }
            first = end;
        }
        region
    }

    /// The words of its slot, but for the generation.
    pub fn slot(&self) -> [u32; REGION_WORDS] {
        let Area { start, length } = self.area;
        [self.name, 0, start, length, self.page, self.order]
    }

    /// The words of its waiters' places, by its id.
    pub fn places(&self, id: u32) -> impl Iterator<Item = [u32; WAITER_WORDS]> + '_ {
        let words = move |w: &Waiter| [w.task, id, w.size, w.alignment, w.priority, w.ticks];
        self.queue.iter().map(words)
    }

    /// Draws the map into the memory.
    pub fn draw(&self, memory: &mut [u32]) {
        let map = &mut memory[self.map..][..self.owners.len()];
        map.fill(0);
        for (first, run) in self.kind.runs(&self.owners) {
            map[first] = 2 * run.len() as u32 + u32::from(run[0] != NOBODY);
        }
    }

    pub fn page_count(&self) -> usize {
        self.owners.len()
    }

    /// The pages that a request of some bytes comes to.
    pub fn pages_for(&self, size: u32) -> usize {
        self.kind.rounded(size.div_ceil(self.page) as usize)
    }

    fn address_of(&self, page: usize) -> u32 {
        self.first_page + page as u32 * self.page
    }

    pub fn segments(&self) -> Vec<Segment> {
        let segment = |(first, run): (usize, &[u32])| Segment {
            address: self.address_of(first),
            length: run.len() as u32 * self.page,
            held: run[0] != NOBODY,
        };
        let runs = self.kind.runs(&self.owners).into_iter();
        runs.map(segment).collect()
    }

    pub fn anything_held(&self) -> bool {
        !is_free(&self.owners)
    }

    /// The first page of the held segment at an address, and its pages.
    pub fn held_at(&self, address: u32) -> Result<(usize, usize), u32> {
        let mut pages = 0..self.owners.len();
        let page = pages.find(|&page| self.address_of(page) == address);
        let page = page.ok_or(status::INVALID_ADDRESS)?;
        let owner = self.owners[page];
        let is_start = page == 0 || self.owners[page - 1] != owner;
        if owner == NOBODY || !is_start {
            return Err(status::INVALID_ADDRESS);
        }
        let pages = self.owners[page..].iter().take_while(|&&o| o == owner);
        Ok((page, pages.count()))
    }

    /// Gives some pages to a new loan.
    fn own(&mut self, first: usize, end: usize) {
        self.loans += 1;
        self.owners[first..end].fill(self.loans);
    }

    /// Refuses an alignment that no get of this region may have. 0 stands for
    /// the page size.
    pub fn refuse_alignment(&self, alignment: u32) -> Result<(), u32> {
        let by_halves = self.kind == Kind::Halves;
        refuse_if(by_halves && alignment != 0, status::NOT_DEFINED)?;
        refuse_if(alignment > MAX_ALIGNMENT, status::INVALID_SIZE)?;
        let is_multiple = alignment.is_multiple_of(self.page);
        refuse_if(!is_multiple, status::INVALID_SIZE)
    }

    /// The first page of the place that the kind has for some bytes on an
    /// alignment, if these are the owners of the pages. It is a page's address
    /// that is on the alignment, and not its number.
    fn place(&self, owners: &[u32], size: u32, alignment: u32) -> Option<usize> {
        let is_on_it = |page: usize| {
            let address = self.address_of(page);
            alignment == 0 || address.is_multiple_of(alignment)
        };
        self.kind.place(owners, self.pages_for(size), is_on_it)
    }

    /// Whether there would be a place if nothing were held.
    pub fn could_lend(&self, size: u32, alignment: u32) -> bool {
        let nothing_held = vec![NOBODY; self.owners.len()];
        self.place(&nothing_held, size, alignment).is_some()
    }

    /// Lends some bytes, if there is a place, and gives the address.
    pub fn lend(&mut self, size: u32, alignment: u32) -> Option<u32> {
        let page = self.place(&self.owners, size, alignment)?;
        self.own(page, page + self.pages_for(size));
        Some(self.address_of(page))
    }

    /// Takes pages of a loan back, all or those from one on.
    pub fn take_back(&mut self, first: usize, end: usize) {
        self.owners[first..end].fill(NOBODY);
    }

    /// Lets the loan that ends before page `end` end before `new_end`, if it
    /// can. By halves it stays as it is.
    pub fn resize(&mut self, end: usize, new_end: usize) -> bool {
        if self.kind == Kind::Halves {
            return new_end == end;
        }
        if new_end < end {
            self.take_back(new_end, end);
            return true;
        }
        self.extend(end, new_end)
    }

    /// Lets the loan that ends before page `end` own the pages up to
    /// `new_end` too, if all of them are free.
    fn extend(&mut self, end: usize, new_end: usize) -> bool {
        let has_room = self.owners.get(end..new_end).is_some_and(is_free);
        if has_room {
            let owner = self.owners[end - 1];
            self.owners[end..new_end].fill(owner);
        }
        has_room
    }

    pub fn enqueue(&mut self, waiter: Waiter) {
        let by_priority = is_by_priority(self.order);
        let ahead = |other: &Waiter| !by_priority || other.priority <= waiter.priority;
        let place = self.queue.iter().take_while(|other| ahead(other)).count();
        self.queue.insert(place, waiter);
    }

    /// Whether there is room for the first waiter.
    pub fn can_serve(&self) -> bool {
        let place = |first: &Waiter| self.place(&self.owners, first.size, first.alignment);
        self.queue.front().and_then(place).is_some()
    }

    /// Serves the first waiter for as long as there is room for it.
    pub fn serve(&mut self) -> Vec<Notice> {
        let mut notices = Vec::new();
        while let Some(first) = self.queue.front() {
            let (task, size, alignment) = (first.task, first.size, first.alignment);
            let Some(address) = self.lend(size, alignment) else {
                break;
            };
            self.queue.pop_front();
            notices.push(Notice {
                task,
                status: status::SUCCESSFUL,
                address,
            });
        }
        notices
    }

    /// Counts one tick for each waiter; those whose time is up leave.
    pub fn tick(&mut self) -> Vec<Notice> {
        let mut notices = Vec::new();
        for waiter in self.queue.iter_mut().filter(|waiter| waiter.ticks > 0) {
            waiter.ticks -= 1;
            if waiter.ticks == 0 {
                notices.push(Notice {
                    task: waiter.task,
                    status: status::TIMEOUT,
                    address: 0,
                });
            }
        }
        let left = |waiter: &Waiter| notices.iter().any(|notice| notice.task == waiter.task);
        self.queue.retain(|waiter| !left(waiter));
        notices
    }

    pub fn information(&self) -> [u32; 6] {
        let mut values = [0; 6];
        for segment in self.segments() {
            let part = if segment.held { 3 } else { 0 };
            values[part] += 1;
            values[part + 1] = values[part + 1].max(segment.length);
            values[part + 2] += segment.length;
        }
        values
    }
}
