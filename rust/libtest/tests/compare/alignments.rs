//! Faults of alignments, each put around the ordinary implementation.

use super::region::{Region, Segment};
use super::{
    copies, is_sound, must_be_found, plain, plain_on, refuse, run, used, with_waiters, Faulty,
};
use directives::words::*;
use libtest::call::{Buffers, Call, Directive};

/// Where pages can be held: a free segment, and the first page.
type Place = (Segment, usize);

impl Region {
    /// All places for so many pages, by rising address.
    fn places(&self, pages: usize) -> Vec<Place> {
        let in_segment = |(free, room): Segment| {
            let end = (free + room + 1).saturating_sub(pages);
            (free..end).map(move |first| ((free, room), first))
        };
        self.free().into_iter().flat_map(in_segment).collect()
    }

    fn is_on(&self, first: usize, alignment: u32) -> bool {
        self.address_of(first).is_multiple_of(alignment)
    }

    /// Whether an alignment is one that a region by pages takes.
    fn allows(&self, alignment: u32) -> bool {
        alignment <= 4_096 && alignment.is_multiple_of(self.page)
    }

    /// Whether there are so many pages from one on an alignment on.
    fn can_have(&self, pages: usize, alignment: u32) -> bool {
        let mut firsts = 0..(self.map.len() + 1).saturating_sub(pages);
        firsts.any(|first| self.is_on(first, alignment))
    }

    /// Holds so many pages of a free segment of before; what is left before and
    /// behind them is free.
    fn hold_at(&self, b: &mut Buffers, ((free, room), first): Place, pages: usize) {
        self.restore(b);
        let end = first + pages;
        self.set(b, free, 2 * (first - free));
        if end < free + room {
            self.set(b, end, 2 * (free + room - end));
        }
        self.set(b, first, 2 * pages + 1);
        b.answer[0] = self.address_of(first);
    }
}

/// A get on an alignment other than 0 of a live region, on sound words.
struct Get {
    region: Region,
    pages: usize,
    alignment: u32,
    may_wait: bool,
    /// What it is answered, and what it would be with alignment 0.
    status: u32,
    without: u32,
}

fn with_alignment(get: &Call, other: u32) -> Call {
    let mut get = get.clone();
    if let Call::Get { alignment, .. } = &mut get {
        *alignment = other;
    }
    get
}

impl Get {
    fn of(b: &Buffers, call: &Call) -> Option<Get> {
        let &Call::Get {
            size,
            alignment,
            wait,
            ..
        } = call
        else {
            return None;
        };
        if alignment == 0 || call.has_wrong_choice() {
            return None;
        }
        let region = Region::of(b, call)?;
        let status = |alignment| plain_on(&mut copies(b), &with_alignment(call, alignment)) as u32;
        Some(Get {
            pages: size.div_ceil(region.page) as usize,
            region,
            alignment,
            may_wait: wait == 1,
            status: status(alignment),
            without: status(0),
        })
    }

    fn is_allowed(&self) -> bool {
        !self.region.by_halves && self.region.allows(self.alignment)
    }

    /// Whether it is refused for its alignment or as too large.
    fn is_refused(&self) -> bool {
        let is_status = matches!(self.status, status::INVALID_SIZE | status::NOT_DEFINED);
        is_status && self.pages > 0
    }

    /// Whether a free segment is long enough.
    fn has_run(&self) -> bool {
        let mut free = self.region.free().into_iter();
        free.any(|(_, room)| room >= self.pages)
    }
}

/// A fault of gets on an alignment that are done: it is handed the get and the
/// places with room by rising address, and gives another place.
fn place_fault(
    fault: impl Fn(&Get, &[Place]) -> Option<Place>,
) -> impl FnMut(&mut Buffers, &Call) -> usize {
    move |b, call| {
        let get = Get::of(b, call);
        let returned = plain(b, call);
        if let Some(get) = get.filter(|get| get.status == status::SUCCESSFUL) {
            if let Some(place) = fault(&get, &get.region.places(get.pages)) {
                get.region.hold_at(b, place, get.pages);
            }
        }
        returned
    }
}

/// The words put back and set anew are no fault by themselves.
#[test]
fn places_are_set_as_they_were() {
    let lowest = place_fault(|get, places| {
        let mut places = places.iter().copied();
        places.find(|(_, first)| get.region.is_on(*first, get.alignment))
    });
    assert!(run(&mut Faulty(lowest), 50_000).is_ok());
    let forgotten = |b: &mut Buffers, call: &Call| with_alignments(b, call, |alignment| alignment);
    assert!(run(&mut Faulty(forgotten), 50_000).is_ok());
}

#[test]
fn faults_of_places_are_found() {
    type IsOn = fn(&Get, usize) -> bool;
    let rules: [(&str, IsOn); 5] = [
        ("by the pages' numbers", |get, first| {
            (first as u32 * get.region.page).is_multiple_of(get.alignment)
        }),
        ("counted from the map", |get, first| {
            let from = 4 * get.region.map_at as u32;
            (get.region.address_of(first) - from).is_multiple_of(get.alignment)
        }),
        ("by the bits of an alignment", |get, first| {
            get.region.address_of(first) & (get.alignment - 1) == 0
        }),
        ("by the segment's end", |get, first| {
            get.region.is_on(first + get.pages, get.alignment)
        }),
        ("by the page size alone", |_, _| true),
    ];
    for (title, is_on) in rules {
        must_be_found(
            title,
            place_fault(|get, places| {
                let mut places = places.iter().copied();
                places.find(|(_, first)| is_on(get, *first))
            }),
        );
    }
    must_be_found(
        "the highest place",
        place_fault(|get, places| {
            let mut places = places.iter().rev().copied();
            places.find(|(_, first)| get.region.is_on(*first, get.alignment))
        }),
    );
    must_be_found(
        "the place in the smallest segment",
        place_fault(|get, places| {
            let places = places.iter().copied();
            let on = places.filter(|(_, first)| get.region.is_on(*first, get.alignment));
            on.min_by_key(|((_, room), _)| *room)
        }),
    );
}

/// A fault of gets on an alignment that are done, on the words that they leave:
/// it is handed the region, the free segment of before, the first page and the
/// pages.
fn must_be_found_in_rooms(title: &str, fault: impl Fn(&mut Buffers, &Region, Segment, Segment)) {
    must_be_found(title, |b, call| {
        let get = Get::of(b, call);
        let returned = plain(b, call);
        if let Some(get) = get.filter(|get| get.status == status::SUCCESSFUL) {
            let first = (b.answer[0] - get.region.first_page) / get.region.page;
            let first = first as usize;
            let mut free = get.region.free().into_iter();
            let taken = free.find(|(free, room)| (*free..free + room).contains(&first));
            fault(b, &get.region, taken.unwrap(), (first, get.pages));
        }
        returned
    });
}

#[test]
fn rooms_that_are_lost_are_found() {
    must_be_found_in_rooms(
        "the room before is held",
        |b, region, (free, _), (first, _)| {
            if free < first {
                region.set(b, free, 2 * (first - free) + 1);
            }
        },
    );
    must_be_found_in_rooms(
        "the room before is in no segment",
        |b, region, (free, _), (first, _)| {
            if free < first {
                region.set(b, free, 0);
            }
        },
    );
    must_be_found_in_rooms(
        "the room before goes with the segment",
        |b, region, (free, _), (first, pages)| {
            region.set(b, first, 0);
            region.set(b, free, 2 * (first - free + pages) + 1);
        },
    );
    must_be_found_in_rooms(
        "the room before goes to the free segment before it",
        |b, region, (free, _), (first, _)| {
            let before = region.map[..free].iter().rposition(|word| *word != 0);
            if let Some(before) = before.filter(|_| free < first) {
                let word = region.map[before] as usize;
                region.set(b, free, 0);
                region.set(b, before, word + 2 * (first - free));
            }
        },
    );
    must_be_found_in_rooms(
        "the room behind is held",
        |b, region, (free, room), (first, pages)| {
            let end = first + pages;
            if end < free + room {
                region.set(b, end, 2 * (free + room - end) + 1);
            }
        },
    );
    must_be_found_in_rooms(
        "the room behind goes with the segment",
        |b, region, (free, room), (first, pages)| {
            if first + pages < free + room {
                region.set(b, first + pages, 0);
                region.set(b, first, 2 * (free + room - first) + 1);
            }
        },
    );
    must_be_found_in_rooms(
        "the room behind keeps the length of all",
        |b, region, (free, room), (first, pages)| {
            if free < first && first + pages < free + room {
                region.set(b, first + pages, 2 * (room - pages));
            }
        },
    );
}

/// A fault of gets on an alignment: which are answered with another refusal.
fn must_be_found_in_statuses(title: &str, refused: impl Fn(&Get) -> Option<u32>) {
    must_be_found(title, |b, call| {
        match Get::of(b, call).and_then(|get| refused(&get)) {
            Some(status) => refuse(b, status),
            None => plain(b, call),
        }
    });
}

#[test]
fn places_that_are_not_looked_at_are_found() {
    must_be_found_in_statuses("only the first segment that is long enough", |get| {
        let mut free = get.region.free().into_iter();
        let (first, room) = free.find(|(_, room)| *room >= get.pages)?;
        let mut places = first..first + room + 1 - get.pages;
        let is_missed = !places.any(|page| get.region.is_on(page, get.alignment));
        let is_done = get.status == status::SUCCESSFUL && !get.may_wait;
        (is_done && is_missed).then_some(status::UNSATISFIED)
    });
    must_be_found_in_statuses("only segments that start on it", |get| {
        let mut free = get.region.free().into_iter();
        let serves = |(first, room)| room >= get.pages && get.region.is_on(first, get.alignment);
        let is_missed = !free.any(serves);
        let is_done = get.status == status::SUCCESSFUL && !get.may_wait;
        (is_done && is_missed).then_some(status::UNSATISFIED)
    });
}

#[test]
fn wrong_tests_of_too_large_are_found() {
    let has_no_place = |get: &Get| matches!(get.status, status::UNSATISFIED | status::WAITING);
    must_be_found_in_statuses("too large by what is free now", |get| {
        has_no_place(get).then_some(status::INVALID_SIZE)
    });
    must_be_found_in_statuses("too large by what is free now, beside a run", |get| {
        (has_no_place(get) && get.has_run()).then_some(status::INVALID_SIZE)
    });
    let is_too_large = |get: &Get| {
        let is_refused = get.is_refused() && get.is_allowed() && !get.may_wait;
        is_refused && get.pages <= get.region.map.len()
    };
    must_be_found_in_statuses("too large by the pages alone", |get| {
        is_too_large(get).then_some(status::UNSATISFIED)
    });
    must_be_found_in_statuses("too large only where no page is on it", |get| {
        let has_page = get.region.can_have(1, get.alignment);
        (is_too_large(get) && has_page).then_some(status::UNSATISFIED)
    });
    must_be_found_in_statuses("too large only where a page is on it", |get| {
        let has_page = get.region.can_have(1, get.alignment);
        (is_too_large(get) && !has_page).then_some(status::UNSATISFIED)
    });
    must_be_found_in_statuses("one page too many", |get| {
        let fits = |pages| get.region.can_have(pages, get.alignment);
        let is_one = is_too_large(get) && get.pages > 1 && fits(get.pages - 1);
        is_one.then_some(status::UNSATISFIED)
    });
    must_be_found_in_statuses("all pages behind it are too many", |get| {
        let fits = get.region.can_have(get.pages + 1, get.alignment);
        let is_done = get.status == status::SUCCESSFUL;
        (is_done && !fits).then_some(status::INVALID_SIZE)
    });
}

/// A fault of gets by pages: which alignment is taken in the place of another.
fn must_be_found_in_alignments(title: &str, taken: impl Fn(u32, u32) -> u32) {
    must_be_found(title, |b, call| match Get::of(b, call) {
        Some(get) if !get.region.by_halves => {
            let alignment = taken(get.alignment, get.region.page);
            plain(b, &with_alignment(call, alignment))
        }
        _ => plain(b, call),
    });
}

#[test]
fn alignments_that_are_not_refused_are_found() {
    must_be_found_in_alignments("no multiple rounded up", |alignment, page| {
        alignment
            .checked_next_multiple_of(page)
            .unwrap_or(alignment)
    });
    must_be_found_in_alignments("no multiple rounded down", |alignment, page| {
        (alignment / page * page).max(page)
    });
    must_be_found_in_alignments("below the page size as the page size", |alignment, page| {
        alignment.max(page)
    });
    must_be_found_in_alignments("no multiple as 0", |alignment, page| {
        match alignment.is_multiple_of(page) {
            true => alignment,
            false => 0,
        }
    });
    must_be_found_in_alignments("above 4,096 as the largest", |alignment, page| {
        alignment.min(4_096 / page * page)
    });
    must_be_found_in_alignments("above 4,096 as 0", |alignment, _| match alignment {
        0..=4_096 => alignment,
        _ => 0,
    });
    must_be_found_in_alignments("rounded up to a power of two", |alignment, _| {
        alignment.checked_next_power_of_two().unwrap_or(alignment)
    });
    must_be_found_in_alignments("read in 16 bits", |alignment, _| alignment & 0xffff);
    must_be_found_in_alignments("read in 31 bits", |alignment, _| alignment & 0x7fff_ffff);
}

#[test]
fn alignments_that_are_refused_are_found() {
    let is_done = |get: &Get| get.status == status::SUCCESSFUL;
    must_be_found_in_statuses("no power of two", |get| {
        (is_done(get) && !get.alignment.is_power_of_two()).then_some(status::INVALID_SIZE)
    });
    must_be_found_in_statuses("the largest", |get| {
        (is_done(get) && get.alignment == 4_096).then_some(status::INVALID_SIZE)
    });
    must_be_found_in_statuses("the page size", |get| {
        (is_done(get) && get.alignment == get.region.page).then_some(status::INVALID_SIZE)
    });
    must_be_found("0", |b, call| match call {
        Call::Get { alignment: 0, .. } => {
            let refused = Region::of(b, call).filter(|_| !call.has_wrong_choice());
            match refused {
                Some(_) => refuse(b, status::INVALID_SIZE),
                None => plain(b, call),
            }
        }
        _ => plain(b, call),
    });
}

#[test]
fn faults_of_alignments_by_halves_are_found() {
    type Taken = fn(&Get) -> bool;
    let taken: [(&str, Taken); 3] = [
        ("any alignment taken by halves", |_| true),
        ("the page size taken by halves", |get| {
            get.alignment == get.region.page
        }),
        ("what is allowed by pages taken by halves", |get| {
            get.region.allows(get.alignment)
        }),
    ];
    for (title, is_taken) in taken {
        must_be_found(title, |b, call| match Get::of(b, call) {
            Some(get) if get.region.by_halves && is_taken(&get) => {
                plain(b, &with_alignment(call, 0))
            }
            _ => plain(b, call),
        });
    }
    must_be_found_in_statuses("8 for a wrong one by halves", |get| {
        let is_wrong = !get.region.allows(get.alignment);
        (get.status == status::NOT_DEFINED && is_wrong).then_some(status::INVALID_SIZE)
    });
    must_be_found_in_statuses("8 for any by halves", |get| {
        (get.status == status::NOT_DEFINED).then_some(status::INVALID_SIZE)
    });
    must_be_found_in_statuses("11 for a wrong one by pages", |get| {
        let is_wrong = !get.region.by_halves && !get.is_allowed();
        (is_wrong && get.is_refused()).then_some(status::NOT_DEFINED)
    });
    must_be_found_in_statuses("11 for a wide one by pages", |get| {
        let is_wide = get.alignment > get.region.page;
        (get.is_allowed() && is_wide && get.pages > 0).then_some(status::NOT_DEFINED)
    });
}

/// An alignment that is refused behind other checks.
#[test]
fn alignments_that_are_tested_later_are_found() {
    type Which = fn(&Get) -> bool;
    let kinds: [(&str, Which); 3] = [
        ("11", |get| get.status == status::NOT_DEFINED),
        ("an alignment", |get| {
            get.is_refused() && !get.region.by_halves && !get.is_allowed()
        }),
        ("no place on it", |get| get.is_refused() && get.is_allowed()),
    ];
    for (title, is_kind) in kinds {
        for (check, later) in [
            ("the task", status::INVALID_NUMBER),
            ("the priority", status::INVALID_PRIORITY),
            ("who waits", status::INCORRECT_STATE),
            ("the search", status::UNSATISFIED),
        ] {
            must_be_found_in_statuses(&format!("{title} behind {check}"), |get| {
                (is_kind(get) && get.without == later).then_some(later)
            });
        }
    }
    must_be_found_in_statuses("11 behind too large", |get| {
        let is_both = get.status == status::NOT_DEFINED && get.without == status::INVALID_SIZE;
        is_both.then_some(status::INVALID_SIZE)
    });
}

/// An alignment that is refused before the id or the size.
#[test]
fn alignments_that_are_tested_earlier_are_found() {
    for by_halves in [true, false] {
        must_be_found("an alignment before the id", |b, call| {
            let region = match *call {
                Call::Get { id, size, .. }
                    if size > 0 && is_sound(b) && Get::of(b, call).is_none() =>
                {
                    slot_of(id).and_then(|slot| Region::in_slot(b, slot))
                }
                _ => None,
            };
            let returned = plain(b, call);
            let (&Call::Get { alignment, .. }, Some(region)) = (call, region) else {
                return returned;
            };
            let is_refused = alignment != 0 && (by_halves || !region.allows(alignment));
            if returned == 4 && is_refused && region.by_halves == by_halves {
                let status = [status::INVALID_SIZE, status::NOT_DEFINED];
                return refuse(b, status[usize::from(by_halves)]);
            }
            returned
        });
    }
    must_be_found_in_statuses("11 before size 0", |get| {
        let is_zero = get.region.by_halves && get.pages == 0;
        is_zero.then_some(status::NOT_DEFINED)
    });
    must_be_found("a wrong one before 25", |b, call| {
        if let Call::Get { alignment, .. } = call {
            let is_long = b.answer.len() >= ANSWER_WORDS && is_record(b.record);
            if *alignment > 4_096 && is_long && !is_sound(b) && !call.has_wrong_choice() {
                return refuse(b, status::INVALID_SIZE);
            }
        }
        plain(b, call)
    });
}

/// A fault of gets that wait: the alignment that is kept, by that which is asked
/// for and the page size.
fn must_be_found_in_places(title: &str, kept: impl Fn(u32, u32) -> u32) {
    must_be_found(title, |b, call| {
        let region = Region::of(b, call);
        let returned = plain(b, call);
        if let (Call::Get { task, .. }, 255, Some(region)) = (call, returned, region) {
            let mut places = used(b.record).iter_mut();
            let place = places.find(|place| place[TASK] == *task).unwrap();
            place[ALIGNMENT] = match region.by_halves {
                true => place[ALIGNMENT],
                false => kept(place[ALIGNMENT], region.page),
            };
        }
        returned
    });
}

#[test]
fn alignments_that_are_not_kept_are_found() {
    must_be_found_in_places("none is kept", |_, _| 0);
    must_be_found_in_places("the page size is kept as 0", |alignment, page| {
        match alignment == page {
            true => 0,
            false => alignment,
        }
    });
    must_be_found_in_places(
        "0 is kept as the page size",
        |alignment, page| match alignment {
            0 => page,
            _ => alignment,
        },
    );
    must_be_found_in_places("it is kept in pages", |alignment, page| alignment / page);
}

/// The call with other alignments of the waiters; those who still wait have
/// theirs again.
fn with_alignments(b: &mut Buffers, call: &Call, other: impl Fn(u32) -> u32) -> usize {
    if !is_sound(b) {
        return plain(b, call);
    }
    let before = used(b.record).to_vec();
    for place in used(b.record) {
        place[ALIGNMENT] = other(place[ALIGNMENT]);
    }
    let returned = plain(b, call);
    for place in used(b.record) {
        let mut before = before.iter();
        if let Some(own) = before.find(|own| own[TASK] == place[TASK]) {
            place[ALIGNMENT] = own[ALIGNMENT];
        }
    }
    returned
}

/// The directives that serve.
const SERVING: [Directive; 3] = [Directive::Return, Directive::Resize, Directive::Tick];

#[test]
fn alignments_that_are_forgotten_are_found() {
    for directive in SERVING {
        let title = format!("{} forgets alignments", directive.name());
        must_be_found(&title, |b, call| match call.directive() == directive {
            true => with_alignments(b, call, |_| 0),
            false => plain(b, call),
        });
    }
}

/// Waiters who are first after a call, and whom an alignment stops, are left
/// out of it, so that those behind them are served.
#[test]
fn waiters_who_are_passed_are_found() {
    for directive in SERVING {
        let title = format!("{} passes a first waiter whom it stops", directive.name());
        must_be_found(&title, |b, call| {
            if call.directive() != directive || !is_sound(b) {
                return plain(b, call);
            }
            let mut words = copies(b);
            plain_on(&mut words, call);
            let left = used(&mut words[0]);
            let queues = left.chunk_by(|one, next| one[REGION] == next[REGION]);
            let firsts = queues.map(|queue| queue[0]);
            let stopped = firsts.filter(|first| first[ALIGNMENT] != 0);
            let stopped: Vec<u32> = stopped.map(|first| first[TASK]).collect();
            with_waiters(b, call, |place| !stopped.contains(&place[TASK]))
        });
    }
}

/// Sound words are refused for the alignment of a waiter.
#[test]
fn faults_of_alignments_in_sound_words_are_found() {
    type IsWrong = fn(&[u32; WAITER_WORDS]) -> bool;
    let wrong: [(&str, IsWrong); 3] = [
        ("an alignment", |waiter| waiter[ALIGNMENT] != 0),
        ("no power of two", |waiter| {
            waiter[ALIGNMENT] != 0 && !waiter[ALIGNMENT].is_power_of_two()
        }),
        ("a size below the alignment", |waiter| {
            waiter[WANTED] < waiter[ALIGNMENT]
        }),
    ];
    for (title, is_wrong) in wrong {
        must_be_found(&format!("{title} of a waiter"), |b, call| {
            let is_ident = call.directive() == Directive::IdentRegion && is_sound(b);
            if is_ident && used(b.record).iter().any(is_wrong) {
                return refuse(b, status::INTERNAL_ERROR);
            }
            plain(b, call)
        });
    }
}
