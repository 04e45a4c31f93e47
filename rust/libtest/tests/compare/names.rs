//! Faults of names, each put around the ordinary implementation.

use super::{copies, is_sound, must_be_found, plain, plain_on, refuse, run, Faulty};
use directives::words::*;
use libtest::call::{Buffers, Call, Directive};
use libtest::sound::{self, Clause};

type SlotAt = fn(usize) -> usize;

/// A kind of object: its create and delete, its slots, and those of the other
/// kind.
struct Kind {
    create: Directive,
    delete: Directive,
    slot_at: SlotAt,
    other_at: SlotAt,
    clause: Clause,
}

const KINDS: [Kind; 2] = [
    Kind {
        create: Directive::CreateRegion,
        delete: Directive::DeleteRegion,
        slot_at: region_at,
        other_at: partition_at,
        clause: Clause::RegionsOfOneName,
    },
    Kind {
        create: Directive::CreatePartition,
        delete: Directive::DeletePartition,
        slot_at: partition_at,
        other_at: region_at,
        clause: Clause::PartitionsOfOneName,
    },
];

/// The names in the slots of a kind, 0 where one is empty.
fn names(record: &[u32], slot_at: SlotAt) -> [u32; SLOTS] {
    std::array::from_fn(|index| record[slot_at(index) + NAME])
}

/// The slot with the name of a create.
fn holder(b: &Buffers, create: &Call, slot_at: SlotAt) -> Option<usize> {
    let name = create.arguments()[0];
    let names = names(b.record, slot_at);
    names.iter().position(|&other| other != 0 && other == name)
}

/// Whether a call is a kind's create, on sound words and with a choice.
fn is_create(b: &Buffers, call: &Call, kind: &Kind) -> bool {
    call.directive() == kind.create && !call.has_wrong_choice() && is_sound(b)
}

/// A name that no object of a kind has, and that is not asked for either.
fn new_name(record: &[u32], slot_at: SlotAt, asked: u32) -> u32 {
    let names = names(record, slot_at);
    let mut new = (1..).filter(|name| !names.contains(name));
    new.find(|name| *name != asked).unwrap()
}

/// The create as if the object in a slot had another name.
fn without(b: &mut Buffers, create: &Call, slot_at: SlotAt, index: usize) -> usize {
    let at = slot_at(index) + NAME;
    let name = b.record[at];
    b.record[at] = new_name(b.record, slot_at, create.arguments()[0]);
    let returned = plain(b, create);
    b.record[at] = name;
    returned
}

/// The lowest empty slot that is not spent.
fn vacant(b: &Buffers, slot_at: SlotAt) -> Option<usize> {
    let is_vacant = |index: &usize| {
        let slot = &b.record[slot_at(*index)..];
        slot[NAME] == 0 && slot[GENERATION] < GENERATIONS
    };
    (0..SLOTS).find(is_vacant)
}

/// Slots that are looked at by another name are no fault by themselves.
#[test]
fn names_are_put_back() {
    for kind in &KINDS {
        let mut library = Faulty(|b: &mut Buffers, call: &Call| {
            if !is_create(b, call, kind) || holder(b, call, kind.slot_at).is_some() {
                return plain(b, call);
            }
            match names(b.record, kind.slot_at)
                .iter()
                .position(|&name| name != 0)
            {
                Some(index) => without(b, call, kind.slot_at, index),
                None => plain(b, call),
            }
        });
        assert!(run(&mut library, 50_000).is_ok());
    }
}

/// A fault of creates whose name is taken: which names are not looked at, by the
/// slot that has it and the one that the new object would have.
fn must_be_found_in_slots(title: &str, is_missed: impl Fn(usize, Option<usize>) -> bool) {
    for kind in &KINDS {
        must_be_found(title, |b, call| {
            if !is_create(b, call, kind) {
                return plain(b, call);
            }
            match holder(b, call, kind.slot_at) {
                Some(index) if is_missed(index, vacant(b, kind.slot_at)) => {
                    without(b, call, kind.slot_at, index)
                }
                _ => plain(b, call),
            }
        });
    }
}

#[test]
fn slots_that_are_not_compared_are_found() {
    must_be_found_in_slots("no slot compared", |_, _| true);
    must_be_found_in_slots("only lower slots compared", |slot, next| {
        next.is_some_and(|next| slot > next)
    });
    must_be_found_in_slots("only higher slots compared", |slot, next| {
        next.is_some_and(|next| slot < next)
    });
    must_be_found_in_slots("not compared without a slot left", |_, next| next.is_none());
    for index in 0..SLOTS {
        let title = format!("slot {index} not compared");
        must_be_found_in_slots(&title, |slot, _| slot == index);
    }
}

/// A fault of creates: which names are refused as if they were taken.
fn must_be_found_in_names(title: &str, is_refused: impl Fn(&Buffers, &Call, &Kind) -> bool) {
    for kind in &KINDS {
        must_be_found(title, |b, call| {
            if is_create(b, call, kind) && is_refused(b, call, kind) {
                return refuse(b, status::INVALID_NAME);
            }
            plain(b, call)
        });
    }
}

#[test]
fn names_that_are_not_taken_are_found() {
    must_be_found_in_names("compared across kinds", |b, create, kind| {
        holder(b, create, kind.other_at).is_some()
    });
    for bits in [0xff, 0xffff, 0x7fff_ffff] {
        must_be_found_in_names(&format!("compared by {bits:#x}"), |b, create, kind| {
            let name = create.arguments()[0];
            let names = names(b.record, kind.slot_at);
            let mut live = names.iter().filter(|live| **live != 0);
            live.any(|live| (live ^ name) & bits == 0)
        });
    }
}

/// As if an emptied slot kept its name.
#[test]
fn names_of_empty_slots_are_found() {
    for kind in &KINDS {
        let mut old = [0; SLOTS];
        must_be_found("compared with empty slots", |b, call| {
            let arguments = call.arguments();
            if is_create(b, call, kind) {
                let slots = old.iter().zip(names(b.record, kind.slot_at));
                let mut empty = slots.filter(|(_, live)| *live == 0);
                if empty.any(|(old, _)| *old != 0 && *old == arguments[0]) {
                    return refuse(b, status::INVALID_NAME);
                }
            }
            let is_delete = call.directive() == kind.delete && is_sound(b);
            let names = is_delete.then(|| names(b.record, kind.slot_at));
            let returned = plain(b, call);
            if let (Some(names), 0) = (names, returned) {
                let index = slot_of(arguments[0]).unwrap();
                old[index] = names[index];
            }
            returned
        });
    }
}

/// What would refuse a create with a taken name first under a new one: the
/// status, and the check.
fn else_refused(b: &Buffers, create: &Call, slot_at: SlotAt) -> (u32, &'static str) {
    let mut arguments = create.arguments();
    arguments[0] = new_name(b.record, slot_at, arguments[0]);
    let renamed = create.directive().call(&arguments);
    let status = plain_on(&mut copies(b), &renamed) as u32;
    let (start, length) = (arguments[1], arguments[2]);
    let end = u64::from(start) + u64::from(length);
    let check = match status {
        status::INVALID_ADDRESS if start == 0 => "start 0",
        status::INVALID_ADDRESS if start % 4 != 0 && create.directive().is_of_partitions() => {
            "the alignment"
        }
        status::INVALID_ADDRESS if end > 4 * b.memory.len() as u64 => "the end",
        status::INVALID_ADDRESS => "the area",
        status::INVALID_SIZE => "the sizes",
        status::TOO_MANY => "the slots",
        _ => "nothing",
    };
    (status, check)
}

#[test]
fn names_that_are_tested_later_are_found() {
    for kind in &KINDS {
        let mut checks = vec!["start 0", "the end", "the sizes", "the area", "the slots"];
        if kind.create.is_of_partitions() {
            checks.push("the alignment");
        }
        for tested in checks {
            must_be_found(&format!("tested after {tested}"), |b, call| {
                if is_create(b, call, kind) && holder(b, call, kind.slot_at).is_some() {
                    let (status, check) = else_refused(b, call, kind.slot_at);
                    if check == tested {
                        return refuse(b, status);
                    }
                }
                plain(b, call)
            });
        }
    }
}

/// Whether a call has all that its function asks for before the words are
/// checked.
fn is_asked(b: &Buffers, call: &Call, directive: Directive) -> bool {
    let is_long = b.answer.len() >= ANSWER_WORDS && is_record(b.record);
    call.directive() == directive && is_long && !call.has_wrong_choice()
}

#[test]
fn names_that_are_tested_before_the_words_are_found() {
    for kind in &KINDS {
        must_be_found("a taken name before 25", |b, call| {
            if is_asked(b, call, kind.create) && holder(b, call, kind.slot_at).is_some() {
                return refuse(b, status::INVALID_NAME);
            }
            plain(b, call)
        });
    }
}

/// Whether a pair of slots has one name, of those pairs that are looked at.
fn have_one_name(
    [first, second]: [&[u32]; 2],
    is_seen: impl Fn(usize, usize) -> bool,
    has_name: impl Fn(u32) -> bool,
) -> bool {
    let pairs = (0..SLOTS).flat_map(|a| (0..SLOTS).map(move |b| (a, b)));
    let mut seen = pairs.filter(|&(a, b)| is_seen(a, b));
    seen.any(|(a, b)| first[a] == second[b] && has_name(first[a]))
}

#[test]
fn faults_of_names_in_sound_words_are_found() {
    let found = |b: &mut Buffers, call: &Call, is_fault: bool| {
        if is_fault && is_asked(b, call, Directive::IdentRegion) {
            return refuse(b, status::INTERNAL_ERROR);
        }
        plain(b, call)
    };
    must_be_found("names of both kinds compared", |b, call| {
        let is_fault = is_sound(b) && {
            let all = [region_at as SlotAt, partition_at].map(|at| names(b.record, at));
            have_one_name([&all[0], &all[1]], |_, _| true, |name| name != 0)
        };
        found(b, call, is_fault)
    });
    for kind in &KINDS {
        must_be_found("names of empty slots compared", |b, call| {
            let is_fault = is_sound(b) && {
                let names = names(b.record, kind.slot_at);
                have_one_name([&names; 2], |a, b| a < b, |_| true)
            };
            found(b, call, is_fault)
        });
    }
}

/// Two slots with one name are found wherever they are.
#[test]
fn slots_that_are_not_compared_in_words_are_found() {
    type IsSeen = fn(usize, usize) -> bool;
    let seen: [(&str, IsSeen); 4] = [
        ("only neighbours", |a, b| b == a + 1),
        ("only the lowest slot", |a, b| a == 0 && b > 0),
        ("only the highest slot", |a, b| a < b && b == SLOTS - 1),
        ("only slots that don't adjoin", |a, b| b > a + 1),
    ];
    for kind in &KINDS {
        for (title, is_seen) in seen {
            must_be_found(&format!("{title} compared"), |b, call| {
                if sound::check(b.record, b.memory) == Err(kind.clause) {
                    let names = names(b.record, kind.slot_at);
                    let is_seen = have_one_name([&names; 2], is_seen, |name| name != 0);
                    if !is_seen && is_asked(b, call, Directive::IdentRegion) {
                        return refuse(b, status::INVALID_NAME);
                    }
                }
                plain(b, call)
            });
        }
    }
}
