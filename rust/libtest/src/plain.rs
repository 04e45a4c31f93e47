//! The library's functions in ordinary Rust, over the same raw words.
//!
//! Each function first checks the whole record and memory, as the library
//! does, and then works in place: on the slots of the record, the words of
//! the maps and the link words of the chains. Nothing is allocated. A directive
//! that has no function here is the model's.

use crate::call::{Buffers, Call, Library};
use crate::sound::{self, layout, pages_before, Layout};
use crate::words::*;
use model::Model;
use std::cmp::Ordering;

/// The ordinary implementation. It has no state of its own.
#[derive(Clone, Copy, Debug, Default)]
pub struct Plain;

impl Library for Plain {
    fn call(&mut self, buffers: Buffers, call: &Call) -> usize {
        let Buffers {
            record,
            memory,
            answer,
        } = buffers;
        let status = match *call {
            Call::Read { id, address } => return read(record, memory, answer, id, address),
            Call::Write {
                id,
                address,
                first,
                ref words,
            } => write(record, memory, words, id, address, first),
            _ => directive(record, memory, answer, call),
        };
        status as usize
    }
}

/// Any call but a read and a write.
fn directive(record: &mut [u32], memory: &mut [u32], answer: &mut [u32], call: &Call) -> u32 {
    if answer.len() < ANSWER_WORDS || call.has_wrong_choice() || !is_record(record) {
        return status::INTERNAL_ERROR;
    }
    answer[..ANSWER_WORDS].fill(0);
    if sound::check(record, memory).is_err() {
        return status::INTERNAL_ERROR;
    }
    let mut state = State {
        record,
        memory,
        answer,
    };
    let result = match *call {
        Call::CreateRegion {
            name,
            start,
            length,
            page,
            order,
        } => state.create_region(name, start, length, page, order),
        Call::IdentRegion { name } => state.ident(name, region_at),
        Call::DeleteRegion { id } => state.delete_region(id),
        Call::Get {
            id,
            size,
            alignment,
            wait,
            task,
            priority,
            ticks,
        } => {
            let waiter = (wait == 1).then_some([task, priority, ticks]);
            state.get(id, size, alignment, waiter)
        }
        Call::Return { id, address } => state.return_segment(id, address),
        Call::Size { id, address } => state.size(id, address),
        Call::Resize { id, address, size } => state.resize(id, address, size),
        Call::Information { id } => state.information(id),
        Call::CreatePartition {
            name,
            start,
            length,
            size,
        } => state.create_partition(name, start, length, size),
        Call::IdentPartition { name } => state.ident(name, partition_at),
        Call::DeletePartition { id } => state.delete_partition(id),
        Call::GetBuffer { id } => state.get_buffer(id),
        Call::ReturnBuffer { id, address } => state.return_buffer(id, address),
        Call::Tick => state.tick(),
        _ => return state.by_model(call),
    };
    match result {
        Ok(value) => {
            state.answer[0] = value;
            status::SUCCESSFUL
        }
        Err(status) => status,
    }
}

/// Copies a held segment's words and gives how many it has; 0 if refused.
fn read(record: &[u32], memory: &[u32], words: &mut [u32], id: u32, address: u32) -> usize {
    if sound::check(record, memory).is_err() {
        return 0;
    }
    let Ok((at, length)) = segment_words(record, memory, id, address) else {
        return 0;
    };
    let count = length.min(words.len());
    words[..count].copy_from_slice(&memory[at..at + count]);
    length
}

fn write(
    record: &[u32],
    memory: &mut [u32],
    words: &[u32],
    id: u32,
    address: u32,
    first: u32,
) -> u32 {
    if sound::check(record, memory).is_err() {
        return status::INTERNAL_ERROR;
    }
    let (at, length) = match segment_words(record, memory, id, address) {
        Ok(place) => place,
        Err(status) => return status,
    };
    let first = first as usize;
    if first > length || words.len() > length - first {
        return status::INVALID_SIZE;
    }
    memory[at + first..][..words.len()].copy_from_slice(words);
    status::SUCCESSFUL
}

/// The first memory word of a held segment, and its words.
fn segment_words(
    record: &[u32],
    memory: &[u32],
    id: u32,
    address: u32,
) -> Result<(usize, usize), u32> {
    let region = Region::find(record, id)?;
    let (_, pages) = region.held_at(memory, address)?;
    let words = pages * region.page as usize / 4;
    Ok((address as usize / 4, words))
}

/// The first word of the live slot that an id names.
fn find(record: &[u32], id: u32, slot_at: fn(usize) -> usize) -> Result<usize, u32> {
    let at = slot_at(slot_of(id).ok_or(status::INVALID_ID)?);
    if record[at + NAME] == 0 || record[at + GENERATION] != generation_of(id) {
        return Err(status::INVALID_ID);
    }
    Ok(at)
}

/// Empties a slot, which then has its next generation.
fn empty(slot: &mut [u32]) {
    let generation = slot[GENERATION] + 1;
    slot.fill(0);
    slot[GENERATION] = generation;
}

/// A live region: its slot, its page size, whether it is by halves and where
/// its pages lie.
#[derive(Clone, Copy)]
struct Region {
    at: usize,
    page: u32,
    by_halves: bool,
    layout: Layout,
}

impl Region {
    fn find(record: &[u32], id: u32) -> Result<Region, u32> {
        let at = find(record, id, region_at)?;
        let (page, order) = (record[at + PAGE], record[at + ORDER]);
        Ok(Region {
            at,
            page,
            by_halves: is_by_halves(order),
            layout: layout(record[at + START], record[at + LENGTH], page, order),
        })
    }

    fn address_of(&self, page: usize) -> u32 {
        self.layout.first_page + page as u32 * self.page
    }

    fn pages_for(&self, size: u32) -> usize {
        let pages = size.div_ceil(self.page) as usize;
        if self.by_halves {
            pages.next_power_of_two()
        } else {
            pages
        }
    }

    fn pages(&self) -> usize {
        self.layout.pages as usize
    }

    fn word(&self, page: usize) -> usize {
        self.layout.map + page
    }

    /// The first page and the pages of the held segment at an address.
    fn held_at(&self, memory: &[u32], address: u32) -> Result<(usize, usize), u32> {
        let refused = Err(status::INVALID_ADDRESS);
        let Some(offset) = address.checked_sub(self.layout.first_page) else {
            return refused;
        };
        let page = (offset / self.page) as usize;
        if offset % self.page != 0 || page >= self.pages() {
            return refused;
        }
        // Only the first word of a held segment is odd.
        let word = memory[self.word(page)];
        if word.is_multiple_of(2) {
            return refused;
        }
        Ok((page, (word / 2) as usize))
    }

    /// The segments by rising address: first page, pages, and if it is held.
    fn segments<'a>(&self, memory: &'a [u32]) -> impl Iterator<Item = (usize, usize, bool)> + 'a {
        let map = &memory[self.layout.map..][..self.pages()];
        let mut page = 0;
        std::iter::from_fn(move || {
            let word = *map.get(page)?;
            let first = page;
            page += (word / 2) as usize;
            Some((first, page - first, word % 2 == 1))
        })
    }

    /// Whether the alignment of a get is one that the region takes.
    fn check_alignment(&self, alignment: u32) -> Result<(), u32> {
        if alignment == 0 {
            Ok(())
        } else if self.by_halves {
            Err(status::NOT_DEFINED)
        } else if alignment > 4_096 || !alignment.is_multiple_of(self.page) {
            Err(status::INVALID_SIZE)
        } else {
            Ok(())
        }
    }

    /// How many pages, from one on, come before the first that is on an
    /// alignment.
    fn pages_before(&self, first: usize, alignment: u32) -> usize {
        pages_before(self.address_of(first), self.page, alignment) as usize
    }

    /// Whether so many pages on an alignment have a place if nothing is held.
    fn can_have(&self, pages: usize, alignment: u32) -> bool {
        pages <= self.pages() && self.pages_before(0, alignment) <= self.pages() - pages
    }

    /// Holds so many pages on an alignment from the free segment that serves,
    /// and gives the address.
    fn take(&self, memory: &mut [u32], pages: usize, alignment: u32) -> Option<u32> {
        if self.by_halves {
            return self.take_block(memory, pages);
        }
        let place = |(first, room, held): (usize, usize, bool)| {
            if held {
                return None;
            }
            let before = self.pages_before(first, alignment);
            let behind = room.checked_sub(before + pages)?;
            Some((first, before, behind))
        };
        let (free, before, behind) = self.segments(memory).find_map(place)?;
        let first = free + before;
        if before > 0 {
            memory[self.word(free)] = 2 * before as u32;
        }
        if behind > 0 {
            memory[self.word(first + pages)] = 2 * behind as u32;
        }
        memory[self.word(first)] = 2 * pages as u32 + 1;
        Some(self.address_of(first))
    }

    /// The same by halves: the lowest of the smallest blocks that have enough
    /// pages is halved until it has so many, and its high halves stay free.
    fn take_block(&self, memory: &mut [u32], pages: usize) -> Option<u32> {
        let (first, room, _) = self
            .segments(memory)
            .filter(|&(_, room, held)| !held && room >= pages)
            .min_by_key(|&(_, room, _)| room)?;
        let mut half = room / 2;
        while half >= pages {
            memory[self.word(first + half)] = 2 * half as u32;
            half /= 2;
        }
        memory[self.word(first)] = 2 * pages as u32 + 1;
        Some(self.address_of(first))
    }

    /// Frees a block and joins it with its other half, for as long as that is
    /// free.
    fn free_block(&self, memory: &mut [u32], first: usize, pages: usize) {
        let (mut first, mut pages) = (first, pages);
        while pages < self.pages() {
            let other = first ^ pages;
            if memory[self.word(other)] != 2 * pages as u32 {
                break;
            }
            memory[self.word(first.max(other))] = 0;
            first = first.min(other);
            pages *= 2;
        }
        memory[self.word(first)] = 2 * pages as u32;
    }
}

struct State<'a> {
    record: &'a mut [u32],
    memory: &'a mut [u32],
    answer: &'a mut [u32],
}

impl State<'_> {
    /// The call as the model makes it: read from the words, and drawn again.
    fn by_model(self, call: &Call) -> u32 {
        let mut model = Model::from_record(self.record, self.memory);
        let answer = model.call(call);
        self.record.copy_from_slice(&model.record());
        self.memory.copy_from_slice(model.memory());
        self.answer[..ANSWER_WORDS].copy_from_slice(&answer.to_words());
        answer.status
    }

    fn create_region(
        &mut self,
        name: u32,
        start: u32,
        length: u32,
        page: u32,
        order: u32,
    ) -> Result<u32, u32> {
        if name == 0 || self.named(name, region_at).is_some() {
            return Err(status::INVALID_NAME);
        }
        if start == 0 || !self.is_inside(start, length) {
            return Err(status::INVALID_ADDRESS);
        }
        if page == 0 || page > 4_096 {
            return Err(status::INVALID_SIZE);
        }
        let page = page.next_multiple_of(8);
        let layout = layout(start, length, page, order);
        if layout.pages == 0 {
            return Err(status::INVALID_SIZE);
        }
        if self.is_taken(start, length) {
            return Err(status::INVALID_ADDRESS);
        }
        let index = self.vacant_slot(region_at)?;
        let map = &mut self.memory[layout.map..][..layout.pages as usize];
        map.fill(0);
        map[0] = 2 * layout.pages;
        let slot = &mut self.record[region_at(index)..][..REGION_WORDS];
        slot[NAME] = name;
        slot[START..].copy_from_slice(&[start, length, page, order]);
        Ok(id_of(index, slot[GENERATION]))
    }

    fn delete_region(&mut self, id: u32) -> Result<u32, u32> {
        let region = Region::find(self.record, id)?;
        // With nothing held there is one free segment with all pages.
        if self.memory[region.layout.map] != 2 * region.layout.pages {
            return Err(status::RESOURCE_IN_USE);
        }
        empty(&mut self.record[region.at..][..REGION_WORDS]);
        Ok(0)
    }

    fn get(
        &mut self,
        id: u32,
        size: u32,
        alignment: u32,
        waiter: Option<[u32; 3]>,
    ) -> Result<u32, u32> {
        if size == 0 {
            return Err(status::INVALID_SIZE);
        }
        let region = Region::find(self.record, id)?;
        region.check_alignment(alignment)?;
        let pages = region.pages_for(size);
        if !region.can_have(pages, alignment) {
            return Err(status::INVALID_SIZE);
        }
        if let Some([task, priority, _]) = waiter {
            if task == 0 || task as usize > TASKS {
                return Err(status::INVALID_NUMBER);
            }
            if priority == 0 || priority > 255 {
                return Err(status::INVALID_PRIORITY);
            }
            if self.waiters().any(|waiter| waiter[TASK] == task) {
                return Err(status::INCORRECT_STATE);
            }
        }
        if let Some(address) = region.take(self.memory, pages, alignment) {
            return Ok(address);
        }
        let [task, priority, ticks] = waiter.ok_or(status::UNSATISFIED)?;
        self.enqueue(region.at, [task, id, size, alignment, priority, ticks]);
        Err(status::WAITING)
    }

    fn return_segment(&mut self, id: u32, address: u32) -> Result<u32, u32> {
        let region = Region::find(self.record, id)?;
        let (page, pages) = region.held_at(self.memory, address)?;
        if region.by_halves {
            region.free_block(self.memory, page, pages);
        } else {
            self.free_and_join(&region, page, page + pages);
        }
        self.serve(id, &region, 0);
        Ok(0)
    }

    /// Serves the first waiter of a region for as long as there is room. The
    /// answer has so many notices before, and then as many as this gives.
    fn serve(&mut self, id: u32, region: &Region, told: usize) -> usize {
        let Some(place) = self.waiters().position(|waiter| waiter[REGION] == id) else {
            return told;
        };
        let mut served = 0;
        for waiter in self.record[waiter_at(place)..].chunks_exact(WAITER_WORDS) {
            let (task, alignment) = (waiter[TASK], waiter[ALIGNMENT]);
            if task == 0 || waiter[REGION] != id {
                break;
            }
            let pages = region.pages_for(waiter[WANTED]);
            let Some(address) = region.take(self.memory, pages, alignment) else {
                break;
            };
            let notice = [task, status::SUCCESSFUL, address];
            put_notice(self.answer, told + served, notice);
            served += 1;
        }
        let (to, from) = (waiter_at(place), waiter_at(place + served));
        self.record.copy_within(from.., to);
        self.record[RECORD_WORDS - served * WAITER_WORDS..].fill(0);
        told + served
    }

    fn size(&mut self, id: u32, address: u32) -> Result<u32, u32> {
        let region = Region::find(self.record, id)?;
        let (_, pages) = region.held_at(self.memory, address)?;
        Ok(pages as u32 * region.page)
    }

    fn resize(&mut self, id: u32, address: u32, size: u32) -> Result<u32, u32> {
        if size == 0 {
            return Err(status::INVALID_SIZE);
        }
        let region = Region::find(self.record, id)?;
        let (page, old) = region.held_at(self.memory, address)?;
        let value = old as u32 * region.page;
        let new = region.pages_for(size);
        let after = page + old;
        if region.by_halves && new != old {
            self.answer[0] = value;
            return Err(status::UNSATISFIED);
        }
        if new > old {
            // The pages of the free follower, if there is one.
            let mut room = 0;
            if after < region.pages() {
                let word = self.memory[region.word(after)];
                room = if word.is_multiple_of(2) {
                    word as usize / 2
                } else {
                    0
                };
            }
            if new - old > room {
                self.answer[0] = value;
                return Err(status::UNSATISFIED);
            }
            self.memory[region.word(after)] = 0;
            if new - old < room {
                self.memory[region.word(page + new)] = 2 * (room - (new - old)) as u32;
            }
            self.memory[region.word(page)] = 2 * new as u32 + 1;
        } else if new < old {
            self.memory[region.word(page)] = 2 * new as u32 + 1;
            self.free_up(&region, page + new, after);
        }
        self.serve(id, &region, 0);
        Ok(value)
    }

    fn information(&mut self, id: u32) -> Result<u32, u32> {
        let region = Region::find(self.record, id)?;
        let values = &mut self.answer[INFORMATION_AT..NOTICES_AT];
        for (_, pages, held) in region.segments(self.memory) {
            let bytes = pages as u32 * region.page;
            let part = if held { 3 } else { 0 };
            values[part] += 1;
            values[part + 1] = values[part + 1].max(bytes);
            values[part + 2] += bytes;
        }
        Ok(0)
    }

    fn create_partition(
        &mut self,
        name: u32,
        start: u32,
        length: u32,
        size: u32,
    ) -> Result<u32, u32> {
        if name == 0 || self.named(name, partition_at).is_some() {
            return Err(status::INVALID_NAME);
        }
        if start == 0 || !start.is_multiple_of(4) || !self.is_inside(start, length) {
            return Err(status::INVALID_ADDRESS);
        }
        if length == 0 || length < size || !size.is_multiple_of(4) || size < 8 {
            return Err(status::INVALID_SIZE);
        }
        if self.is_taken(start, length) {
            return Err(status::INVALID_ADDRESS);
        }
        let index = self.vacant_slot(partition_at)?;
        let free = length / size;
        let mut before = 0;
        let mut address = start;
        for left in (0..free).rev() {
            let word = address as usize / 4;
            let next = address + size;
            self.memory[word] = if left > 0 { next } else { 0 };
            self.memory[word + 1] = before;
            before = address;
            address = next;
        }
        let slot = &mut self.record[partition_at(index)..][..PARTITION_WORDS];
        slot[NAME] = name;
        slot[START..].copy_from_slice(&[start, length, size, start, before, free]);
        Ok(id_of(index, slot[GENERATION]))
    }

    fn delete_partition(&mut self, id: u32) -> Result<u32, u32> {
        let at = find(self.record, id, partition_at)?;
        let slot = &mut self.record[at..][..PARTITION_WORDS];
        if slot[FREE] != slot[LENGTH] / slot[SIZE] {
            return Err(status::RESOURCE_IN_USE);
        }
        empty(slot);
        Ok(0)
    }

    fn get_buffer(&mut self, id: u32) -> Result<u32, u32> {
        let at = find(self.record, id, partition_at)?;
        let slot = &mut self.record[at..][..PARTITION_WORDS];
        let front = slot[FRONT];
        if front == 0 {
            return Err(status::UNSATISFIED);
        }
        let word = front as usize / 4;
        let next = self.memory[word];
        self.memory[word] = 0;
        self.memory[word + 1] = 0;
        if next == 0 {
            slot[REAR] = 0;
        } else {
            self.memory[next as usize / 4 + 1] = 0;
        }
        slot[FRONT] = next;
        slot[FREE] -= 1;
        Ok(front)
    }

    fn return_buffer(&mut self, id: u32, address: u32) -> Result<u32, u32> {
        let at = find(self.record, id, partition_at)?;
        let slot = &mut self.record[at..][..PARTITION_WORDS];
        let (start, length, size) = (slot[START], slot[LENGTH], slot[SIZE]);
        let offset = address.wrapping_sub(start);
        if address < start || offset % size != 0 || offset / size >= length / size {
            return Err(status::INVALID_ADDRESS);
        }
        let mut free = slot[FRONT];
        while free != 0 {
            if free == address {
                return Err(status::INVALID_ADDRESS);
            }
            free = self.memory[free as usize / 4];
        }
        let word = address as usize / 4;
        let rear = slot[REAR];
        self.memory[word] = 0;
        self.memory[word + 1] = rear;
        if rear == 0 {
            slot[FRONT] = address;
        } else {
            self.memory[rear as usize / 4] = address;
        }
        slot[REAR] = address;
        slot[FREE] += 1;
        Ok(0)
    }

    fn tick(&mut self) -> Result<u32, u32> {
        let mut staying = 0;
        let mut left = 0;
        for place in 0..TASKS {
            let at = waiter_at(place);
            let task = self.record[at + TASK];
            if task == 0 {
                break;
            }
            let ticks = self.record[at + TICKS];
            if ticks == 1 {
                put_notice(self.answer, left, [task, status::TIMEOUT, 0]);
                left += 1;
                continue;
            }
            self.record[at + TICKS] = ticks.saturating_sub(1);
            if staying < place {
                let from = at..at + WAITER_WORDS;
                self.record.copy_within(from, waiter_at(staying));
            }
            staying += 1;
        }
        self.record[waiter_at(staying)..waiter_at(staying + left)].fill(0);
        if left > 0 {
            self.serve_all(left);
        }
        Ok(0)
    }

    /// Serves the queue of every region, behind so many notices.
    fn serve_all(&mut self, mut told: usize) {
        for index in 0..SLOTS {
            let id = id_of(index, self.record[region_at(index) + GENERATION]);
            if let Ok(region) = Region::find(self.record, id) {
                told = self.serve(id, &region, told);
            }
        }
    }

    fn ident(&mut self, name: u32, slot_at: fn(usize) -> usize) -> Result<u32, u32> {
        if name == 0 {
            return Err(status::INVALID_NAME);
        }
        let index = self.named(name, slot_at).ok_or(status::INVALID_NAME)?;
        Ok(id_of(index, self.record[slot_at(index) + GENERATION]))
    }

    /// The slot with a name that is not 0.
    fn named(&self, name: u32, slot_at: fn(usize) -> usize) -> Option<usize> {
        (0..SLOTS).find(|&index| self.record[slot_at(index) + NAME] == name)
    }

    /// The lowest empty slot that is not spent.
    fn vacant_slot(&self, slot_at: fn(usize) -> usize) -> Result<usize, u32> {
        let is_vacant = |index: &usize| {
            let at = slot_at(*index);
            self.record[at + NAME] == 0 && self.record[at + GENERATION] < GENERATIONS
        };
        (0..SLOTS).find(is_vacant).ok_or(status::TOO_MANY)
    }

    fn is_inside(&self, start: u32, length: u32) -> bool {
        let end = start.checked_add(length);
        end.is_some_and(|end| end as usize <= 4 * self.memory.len())
    }

    /// Whether a live area overlaps another one, which is inside the memory.
    fn is_taken(&self, start: u32, length: u32) -> bool {
        let slots = (0..SLOTS).map(region_at);
        slots.chain((0..SLOTS).map(partition_at)).any(|at| {
            let (other, other_length) = (self.record[at + START], self.record[at + LENGTH]);
            self.record[at + NAME] != 0 && start < other + other_length && other < start + length
        })
    }

    /// The used places of the queue.
    fn waiters(&self) -> impl Iterator<Item = &[u32]> {
        let places = self.record[WAITERS_AT..].chunks_exact(WAITER_WORDS);
        places.take_while(|waiter| waiter[TASK] != 0)
    }

    /// Puts a waiter in its place; there is an unused one.
    fn enqueue(&mut self, region_at: usize, new: [u32; WAITER_WORDS]) {
        let by_priority = is_by_priority(self.record[region_at + ORDER]);
        let slot = slot_of(new[REGION]);
        let is_ahead = |other: &[u32]| match slot_of(other[REGION]).cmp(&slot) {
            Ordering::Less => true,
            Ordering::Equal => !by_priority || other[PRIORITY] <= new[PRIORITY],
            Ordering::Greater => false,
        };
        let place = self.waiters().take_while(|other| is_ahead(other)).count();
        let at = waiter_at(place);
        let end = RECORD_WORDS - WAITER_WORDS;
        self.record.copy_within(at..end, at + WAITER_WORDS);
        self.record[at..at + WAITER_WORDS].copy_from_slice(&new);
    }

    /// Frees pages `from` up to `to`, which is a segment's end, and joins them
    /// with a free follower.
    fn free_up(&mut self, region: &Region, from: usize, to: usize) {
        let mut end = to;
        if to < region.pages() {
            let word = self.memory[region.word(to)];
            if word.is_multiple_of(2) {
                self.memory[region.word(to)] = 0;
                end += word as usize / 2;
            }
        }
        self.memory[region.word(from)] = 2 * (end - from) as u32;
    }

    /// Frees a whole segment and joins it with free neighbours.
    fn free_and_join(&mut self, region: &Region, from: usize, to: usize) {
        let before = region
            .segments(self.memory)
            .take_while(|&(first, ..)| first < from)
            .last();
        let mut first = from;
        if let Some((page, _, false)) = before {
            self.memory[region.word(from)] = 0;
            first = page;
        }
        self.free_up(region, first, to);
    }
}

fn put_notice(answer: &mut [u32], index: usize, notice: [u32; NOTICE_WORDS]) {
    let at = NOTICES_AT + index * NOTICE_WORDS;
    answer[at..at + NOTICE_WORDS].copy_from_slice(&notice);
}

#[cfg(test)]
mod tests {
    use super::*;
    use directives::Directive;

    /// The model leaves the words that the functions leave.
    #[test]
    fn by_the_model() {
        let mut words = [vec![0; RECORD_WORDS], vec![7; 256], vec![0; ANSWER_WORDS]];
        for (asked, arguments) in [
            (Directive::CreateRegion, &[1, 4, 508, 16, 1][..]),
            (Directive::CreatePartition, &[2, 512, 100, 24]),
            (Directive::GetBuffer, &[1]),
            (Directive::Get, &[1, 300, 0, 0, 0, 0, 0]),
            (Directive::Get, &[1, 300, 0, 1, 3, 9, 2]),
            (Directive::Get, &[1, 112, 0, 1, 4, 9, 0]),
            (Directive::Get, &[1, 112, 0, 1, 5, 9, 0]),
            (Directive::Resize, &[1, 112, 288]),
            (Directive::Information, &[1]),
            (Directive::Tick, &[]),
            (Directive::Tick, &[]),
            (Directive::Resize, &[1, 112, 16]),
            (Directive::Return, &[1, 3]),
            (Directive::CreatePartition, &[3, 612, 8, 8]),
            (Directive::DeletePartition, &[2]),
            (Directive::CreatePartition, &[3, 612, 8, 8]),
            (Directive::IdentPartition, &[3]),
            (Directive::GetBuffer, &[2]),
            (Directive::CreatePartition, &[3, 620, 8, 8]),
            (Directive::CreateRegion, &[1, 700, 200, 16, 3]),
            (Directive::CreateRegion, &[3, 700, 200, 16, 3]),
            (Directive::Get, &[2, 16, 0, 0, 0, 0, 0]),
            (Directive::Get, &[2, 40, 0, 0, 0, 0, 0]),
            (Directive::Get, &[2, 17, 0, 0, 0, 0, 0]),
            (Directive::Get, &[2, 90, 0, 1, 6, 9, 2]),
            (Directive::Resize, &[2, 736, 1]),
            (Directive::Resize, &[2, 736, 17]),
            (Directive::Return, &[2, 800]),
            (Directive::Return, &[2, 768]),
            (Directive::Return, &[2, 736]),
            (Directive::Information, &[2]),
            (Directive::Get, &[2, 16, 32, 0, 0, 0, 0]),
            (Directive::CreateRegion, &[4, 900, 120, 8, 0]),
            (Directive::Get, &[3, 8, 24, 0, 0, 0, 0]),
            (Directive::Get, &[3, 8, 32, 0, 0, 0, 0]),
            (Directive::Get, &[3, 8, 8, 0, 0, 0, 0]),
            (Directive::Get, &[3, 8, 12, 0, 0, 0, 0]),
            (Directive::Get, &[3, 8, 4_104, 0, 0, 0, 0]),
            (Directive::Get, &[3, 8, 1_024, 0, 0, 0, 0]),
            (Directive::Get, &[3, 72, 0, 0, 0, 0, 0]),
            (Directive::Get, &[3, 8, 24, 1, 7, 1, 0]),
            (Directive::Get, &[3, 8, 64, 1, 8, 1, 0]),
            (Directive::Information, &[3]),
            (Directive::Return, &[3, 960]),
        ] {
            let call = asked.call(arguments);
            let mut others = words.clone();
            let [record, memory, answer] = &mut others;
            let state = State {
                record,
                memory,
                answer,
            };
            let status = state.by_model(&call);
            let [record, memory, answer] = &mut words;
            assert_eq!(directive(record, memory, answer, &call), status, "{call:?}");
            assert_eq!(words, others, "{call:?}");
        }
    }
}
