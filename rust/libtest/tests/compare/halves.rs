//! Faults in regions by halves, each put onto the words that the ordinary
//! implementation leaves.

use super::region::{Region, Segment};
use super::{copies, must_be_found, plain, run, with_waiters, Faulty};
use directives::words::*;
use libtest::call::{Buffers, Call, Directive};
use libtest::sound::layout;

/// The region by halves that a call on sound words names.
fn region_of(b: &Buffers, call: &Call) -> Option<Region> {
    Region::of(b, call).filter(|region| region.by_halves)
}

impl Region {
    /// The block at an address, which is a page's.
    fn at(&self, address: u32) -> Segment {
        let page = ((address - self.first_page) / self.page) as usize;
        (page, self.map[page] as usize / 2)
    }

    /// Holds a low part of a free block of before; the rest is free in high
    /// halves.
    fn hold_low(&self, b: &mut Buffers, (first, room): Segment, pages: usize) {
        self.restore(b);
        let mut half = room / 2;
        while half >= pages {
            self.set(b, first + half, 2 * half);
            half /= 2;
        }
        self.set(b, first, 2 * pages + 1);
        b.answer[0] = self.address_of(first);
    }
}

/// A fault of gets that are granted: it is handed the region, the free blocks
/// of before that have room, and the pages that are held now.
fn get_fault(
    fault: impl Fn(&mut Buffers, &Region, &[Segment], usize) -> Option<()>,
) -> impl FnMut(&mut Buffers, &Call) -> usize {
    move |b, call| {
        let region = region_of(b, call);
        let returned = plain(b, call);
        if let (Call::Get { .. }, 0, Some(region)) = (call, returned, region) {
            let page = (b.answer[0] - region.first_page) / region.page;
            let pages = b.memory[region.map_at + page as usize] as usize / 2;
            let mut free = region.free();
            free.retain(|(_, room)| *room >= pages);
            fault(b, &region, &free, pages);
        }
        returned
    }
}

/// The words put back and set anew are no fault by themselves.
#[test]
fn words_are_set_as_they_were() {
    let gets = get_fault(|b, region, free, pages| {
        let smallest = free.iter().min_by_key(|(_, room)| *room)?;
        region.hold_low(b, *smallest, pages);
        Some(())
    });
    assert!(run(&mut Faulty(gets), 50_000).is_ok());
    let returns = return_fault(|region, block| joined(region, block, 99, other_half));
    assert!(run(&mut Faulty(returns), 50_000).is_ok());
    let orders = |b: &mut Buffers, call: &Call| with_order(b, call, |order| order);
    assert!(run(&mut Faulty(orders), 50_000).is_ok());
}

#[test]
fn faults_of_gets_by_halves_are_found() {
    must_be_found(
        "the lowest block",
        get_fault(|b, region, free, pages| {
            region.hold_low(b, *free.first()?, pages);
            Some(())
        }),
    );
    must_be_found(
        "the highest block",
        get_fault(|b, region, free, pages| {
            region.hold_low(b, *free.last()?, pages);
            Some(())
        }),
    );
    must_be_found(
        "the highest of equals",
        get_fault(|b, region, free, pages| {
            let smallest = free.iter().rev().min_by_key(|(_, room)| *room)?;
            region.hold_low(b, *smallest, pages);
            Some(())
        }),
    );
    must_be_found(
        "the largest block",
        get_fault(|b, region, free, pages| {
            let largest = free.iter().rev().max_by_key(|(_, room)| *room)?;
            region.hold_low(b, *largest, pages);
            Some(())
        }),
    );
    must_be_found(
        "the high half goes on",
        get_fault(|b, region, free, pages| {
            let (first, room) = *free.iter().min_by_key(|(_, room)| *room)?;
            region.restore(b);
            let (mut low, mut half) = (first, room / 2);
            while half >= pages {
                region.set(b, low, 2 * half);
                low += half;
                half /= 2;
            }
            region.set(b, low, 2 * pages + 1);
            b.answer[0] = region.address_of(low);
            Some(())
        }),
    );
    must_be_found(
        "halved once less",
        get_fault(|b, region, free, pages| {
            let smallest = *free.iter().min_by_key(|(_, room)| *room)?;
            if smallest.1 > pages {
                region.hold_low(b, smallest, 2 * pages);
            }
            Some(())
        }),
    );
    must_be_found(
        "the rest in one block",
        get_fault(|b, region, free, pages| {
            let (first, room) = *free.iter().min_by_key(|(_, room)| *room)?;
            region.hold_low(b, (first, pages), pages);
            if room > pages {
                region.set(b, first + pages, 2 * (room - pages));
            }
            Some(())
        }),
    );
    must_be_found("pages that are not rounded up", |b, call| {
        let region = region_of(b, call);
        let returned = plain(b, call);
        if let (&Call::Get { size, .. }, 0, Some(region)) = (call, returned, region) {
            let (first, pages) = (
                (b.answer[0] - region.first_page) / region.page,
                size.div_ceil(region.page) as usize,
            );
            region.set(b, first as usize, 2 * pages + 1);
        }
        returned
    });
    must_be_found("pages behind the longer map", |b, call| {
        let region = region_of(b, call);
        let returned = plain(b, call);
        if let (Call::Get { .. }, 0, Some(region)) = (call, returned, region) {
            let slot = &b.record[region.slot..][..REGION_WORDS];
            let by_pages = layout(slot[START], slot[LENGTH], slot[PAGE], 0);
            b.answer[0] += by_pages.first_page - region.first_page;
        }
        returned
    });
}

/// A fault of returns that serve nobody: it is handed the region and the block
/// that comes back, and gives the free block that is left; the words of others
/// that it takes in are 0.
fn return_fault(
    fault: impl Fn(&Region, Segment) -> Segment,
) -> impl FnMut(&mut Buffers, &Call) -> usize {
    move |b, call| {
        let region = region_of(b, call);
        let returned = plain(b, call);
        if let (&Call::Return { address, .. }, 0, Some(region)) = (call, returned, region) {
            if b.answer[NOTICES_AT] == 0 {
                region.restore(b);
                let (first, pages) = fault(&region, region.at(address));
                let map = &mut b.memory[region.map_at..][..region.map.len()];
                map[first..first + pages].fill(0);
                map[first] = 2 * pages as u32;
            }
        }
        returned
    }
}

/// Joins a block with another that is free, for as long as one is found.
fn joined(
    region: &Region,
    mut block: Segment,
    most: usize,
    other: impl Fn(Segment) -> Option<usize>,
) -> Segment {
    let free = region.free();
    for _ in 0..most {
        let (first, pages) = block;
        match other(block) {
            Some(other) if free.contains(&(other, pages)) => {
                block = (first.min(other), 2 * pages);
            }
            _ => break,
        }
    }
    block
}

fn other_half((first, pages): Segment) -> Option<usize> {
    Some(first ^ pages)
}

#[test]
fn faults_of_returns_by_halves_are_found() {
    must_be_found(
        "a return that joins nothing",
        return_fault(|_, block| block),
    );
    must_be_found(
        "a return that joins once",
        return_fault(|region, block| joined(region, block, 1, other_half)),
    );
    must_be_found(
        "a return that joins twice at most",
        return_fault(|region, block| joined(region, block, 2, other_half)),
    );
    must_be_found(
        "a return that joins what follows",
        return_fault(|region, block| {
            joined(region, block, 99, |(first, pages)| Some(first + pages))
        }),
    );
    must_be_found(
        "a return that joins what is before",
        return_fault(|region, block| {
            joined(region, block, 99, |(first, pages)| first.checked_sub(pages))
        }),
    );
    must_be_found(
        "halves by address",
        return_fault(|region, block| {
            joined(region, block, 99, |(first, pages)| {
                let length = pages as u32 * region.page;
                let is_low = region.address_of(first).is_multiple_of(2 * length);
                match is_low {
                    true => Some(first + pages),
                    false => first.checked_sub(pages),
                }
            })
        }),
    );
    must_be_found(
        "free neighbours joined as by pages",
        return_fault(|region, block| {
            let free = region.free();
            let (mut first, mut end) = (block.0, block.0 + block.1);
            if let Some((low, _)) = free.iter().find(|(low, pages)| low + pages == first) {
                first = *low;
            }
            if let Some((_, pages)) = free.iter().find(|(low, _)| *low == end) {
                end += pages;
            }
            (first, end - first)
        }),
    );
    must_be_found(
        "a return by halves serves nobody",
        |b, call| match region_of(b, call) {
            Some(_) if call.directive() == Directive::Return => with_waiters(b, call, |_| false),
            _ => plain(b, call),
        },
    );
}

#[test]
fn faults_of_resizes_by_halves_are_found() {
    type Change = fn(usize, usize) -> bool;
    for (title, is_wrong) in [
        ("fewer pages", (|old, new| new < old) as Change),
        ("more pages", |old, new| new > old),
    ] {
        must_be_found(&format!("{title} by halves are done"), |b, call| {
            let region = region_of(b, call);
            let returned = plain(b, call);
            match (call, returned, region) {
                (&Call::Resize { address, size, .. }, 13, Some(region)) => {
                    let (_, old) = region.at(address);
                    let new = size.div_ceil(region.page) as usize;
                    if is_wrong(old, new) {
                        0
                    } else {
                        13
                    }
                }
                _ => returned,
            }
        });
    }
    must_be_found("whole pages and not rounded ones stay", |b, call| {
        let region = region_of(b, call);
        let mut words = copies(b);
        let returned = plain(b, call);
        match (call, returned, region) {
            (&Call::Resize { address, size, .. }, 0, Some(region)) => {
                let (_, old) = region.at(address);
                if old == size.div_ceil(region.page) as usize {
                    return 0;
                }
                words[2][..ANSWER_WORDS].fill(0);
                words[2][0] = b.answer[0];
                for (to, from) in [(&mut *b.record, &words[0]), (b.memory, &words[1])] {
                    to.copy_from_slice(from);
                }
                b.answer.copy_from_slice(&words[2]);
                13
            }
            _ => returned,
        }
    });
}

/// The call, but a get that may wait with another order in the slot of its
/// region.
fn with_order(b: &mut Buffers, call: &Call, other: impl Fn(u32) -> u32) -> usize {
    let region = region_of(b, call);
    let (Call::Get { wait: 1, .. }, Some(region)) = (call, region) else {
        return plain(b, call);
    };
    let at = region.slot + ORDER;
    let order = b.record[at];
    b.record[at] = other(order);
    let returned = plain(b, call);
    b.record[at] = order;
    returned
}

#[test]
fn faults_of_orders_are_found() {
    must_be_found("order 3 by arrival", |b, call| with_order(b, call, |_| 2));
    must_be_found("order 2 by priority", |b, call| with_order(b, call, |_| 3));
    for (title, change) in [
        (
            "orders 2 and 3 as 0 and 1",
            (|order| order % 2) as fn(u32) -> u32,
        ),
        ("orders 2 and 3 as one", |order| order.min(2)),
        ("order 4 as 3", |order| order.min(3)),
        ("orders 0 and 1 as 2 and 3", |order| order.max(2)),
    ] {
        must_be_found(title, |b, call| {
            let mut call = call.clone();
            if let Call::CreateRegion { order, .. } = &mut call {
                *order = change(*order);
            }
            plain(b, &call)
        });
    }
    must_be_found("as many pages as by pages", |b, call| {
        let mut call = call.clone();
        let mut asked = 0;
        if let Call::CreateRegion { order, .. } = &mut call {
            if is_by_halves(*order) && *order < ORDERS {
                asked = *order;
                *order = 0;
            }
        }
        let returned = plain(b, &call);
        if asked > 0 && returned == 0 {
            let at = region_at(slot_of(b.answer[0]).unwrap());
            b.record[at + ORDER] = asked;
        }
        returned
    });
}

#[test]
fn faults_of_information_by_halves_are_found() {
    must_be_found("free neighbours counted as one", |b, call| {
        let region = region_of(b, call);
        let returned = plain(b, call);
        if let (Call::Information { .. }, Some(region)) = (call, region) {
            let free = region.free();
            let pairs = free
                .windows(2)
                .filter(|two| two[0].0 + two[0].1 == two[1].0);
            b.answer[INFORMATION_AT] -= pairs.count() as u32;
        }
        returned
    });
}
