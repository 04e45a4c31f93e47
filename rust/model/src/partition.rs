//! A partition: the queue of its free buffers.

use crate::slots::Named;
use crate::Area;
use directives::words::PARTITION_WORDS;
use std::collections::VecDeque;

#[derive(Clone, Debug)]
pub struct Partition {
    pub name: u32,
    pub area: Area,
    pub size: u32,
    /// The addresses of the free buffers, the next one to be given in front.
    pub chain: VecDeque<u32>,
}

impl Named for Partition {
    fn name(&self) -> u32 {
        self.name
    }
}

impl Partition {
    /// A partition with all buffers free.
    pub fn new(name: u32, area: Area, size: u32) -> Partition {
        let mut partition = Partition {
            name,
            area,
            size,
            chain: VecDeque::new(),
        };
        partition.chain = partition.buffers().collect();
        partition
    }

    /// The partition that a slot and the links in the memory describe.
    pub fn from_words(slot: &[u32], memory: &[u32]) -> Partition {
        let [name, _, start, length, size, front, ..] = *slot else {
            unreachable!("a slot has so many words");
        };
        let mut chain = VecDeque::new();
        let mut address = front;
        while address != 0 {
            chain.push_back(address);
            address = memory[address as usize / 4];
        }
        Partition {
            name,
            area: Area::new(start, length),
            size,
            chain,
        }
    }

    /// The words of its slot, but for the generation.
    pub fn slot(&self) -> [u32; PARTITION_WORDS] {
        let end = |address: Option<&u32>| address.copied().unwrap_or(0);
        [
            self.name,
            0,
            self.area.start,
            self.area.length,
            self.size,
            end(self.chain.front()),
            end(self.chain.back()),
            self.chain.len() as u32,
        ]
    }

    /// Draws both link words of every free buffer into the memory.
    pub fn draw(&self, memory: &mut [u32]) {
        let address_at = |place: Option<usize>| {
            let address = place.and_then(|place| self.chain.get(place));
            address.copied().unwrap_or(0)
        };
        for (place, &address) in self.chain.iter().enumerate() {
            let word = address as usize / 4;
            memory[word] = address_at(Some(place + 1));
            memory[word + 1] = address_at(place.checked_sub(1));
        }
    }

    pub fn count(&self) -> usize {
        (self.area.length / self.size) as usize
    }

    /// The addresses of all buffers, rising.
    fn buffers(&self) -> impl Iterator<Item = u32> + '_ {
        let buffers = 0..self.count() as u32;
        buffers.map(|index| self.area.start + index * self.size)
    }

    /// The addresses of the held buffers, rising.
    pub fn held(&self) -> Vec<u32> {
        let mut is_free = vec![false; self.count()];
        for &address in &self.chain {
            is_free[((address - self.area.start) / self.size) as usize] = true;
        }
        let held = self.buffers().zip(is_free).filter(|(_, free)| !free);
        held.map(|(address, _)| address).collect()
    }

    pub fn is_held(&self, address: u32) -> bool {
        self.buffers().any(|buffer| buffer == address) && !self.chain.contains(&address)
    }
}
