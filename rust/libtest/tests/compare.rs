//! Tests of the comparison itself: the ordinary implementation passes it, and
//! implementations with a fault do not.

use directives::words::*;
use libtest::call::{Buffers, Call, Directive, Library};
use libtest::compare::Comparison;
use libtest::plain::Plain;
use libtest::sound::{self, Clause};

#[path = "compare/alignments.rs"]
mod alignments;
#[path = "compare/halves.rs"]
mod halves;
#[path = "compare/names.rs"]
mod names;
#[path = "compare/region.rs"]
mod region;

/// Runs lists until so many calls are made, or a difference is found.
fn run(library: &mut impl Library, calls: u64) -> Result<libtest::tally::Tally, String> {
    let mut comparison = Comparison::new(library);
    let mut index = 0;
    while comparison.tally.calls < calls {
        comparison.list(1, index)?;
        index += 1;
    }
    Ok(comparison.tally)
}

/// Lists alone reach everything that should occur.
#[test]
fn the_ordinary_implementation_agrees_with_the_model() {
    let tally = run(&mut Plain, 200_000).unwrap_or_else(|problem| panic!("{problem}"));
    println!("{tally}");
    assert_eq!(tally.missing(), Vec::<String>::new());
}

#[test]
fn the_ordinary_implementation_passes_the_examples_and_all_generations() {
    let mut plain = Plain;
    let mut comparison = Comparison::new(&mut plain);
    assert_eq!(comparison.examples(), Ok(()));
    let before = comparison.tally.calls;
    assert_eq!(comparison.generations(), Ok(()));
    assert!(comparison.tally.calls - before > 2 * u64::from(GENERATIONS));
}

/// A library with a fault.
struct Faulty<F>(F);

impl<F: FnMut(&mut Buffers, &Call) -> usize> Library for Faulty<F> {
    fn call(&mut self, mut buffers: Buffers, call: &Call) -> usize {
        (self.0)(&mut buffers, call)
    }
}

/// A fault must be found within so many calls.
fn must_be_found(title: &str, fault: impl FnMut(&mut Buffers, &Call) -> usize) {
    let result = run(&mut Faulty(fault), 120_000);
    assert!(result.is_err(), "not found: {title}");
}

/// The call as the ordinary implementation makes it.
fn plain(buffers: &mut Buffers, call: &Call) -> usize {
    let buffers = Buffers {
        record: buffers.record,
        memory: buffers.memory,
        answer: buffers.answer,
    };
    Plain.call(buffers, call)
}

#[test]
fn each_clause_that_is_not_checked_is_found() {
    for &clause in Clause::ALL {
        must_be_found(clause.title(), |b, call| {
            let broken = sound::check(b.record, b.memory);
            if broken == Err(clause) && call.directive() == Directive::IdentRegion {
                return status::INVALID_NAME as usize;
            }
            plain(b, call)
        });
    }
}

#[test]
fn faults_of_arguments_are_found() {
    must_be_found("no choice as waiting", |b, call| {
        let mut call = call.clone();
        if let Call::Get { wait, .. } = &mut call {
            *wait = (*wait).min(1);
        }
        plain(b, &call)
    });
    must_be_found("a request that wraps when rounded", |b, call| {
        let mut call = call.clone();
        if let Call::Resize { size, .. } = &mut call {
            *size = if *size > u32::MAX - 7 { 1 } else { *size };
        }
        plain(b, &call)
    });
    must_be_found("a write of no words past the end", |b, call| {
        let returned = plain(b, call);
        match call {
            Call::Write { words, .. } if words.is_empty() && returned == 8 => 0,
            _ => returned,
        }
    });
    must_be_found(
        "task and priority read without waiting",
        |b, call| match *call {
            Call::Get { wait: 0, task, .. } if task > 16 => status::INVALID_NUMBER as usize,
            _ => plain(b, call),
        },
    );
}

/// The slot that an id names, where it is live: its first word and its
/// generation.
fn live_slot(record: &[u32], call: &Call) -> Option<(usize, u32)> {
    let slot_at = match call.directive().is_of_partitions() {
        true => partition_at,
        false => region_at,
    };
    let has_id = call.directive().has_id() && record.len() == RECORD_WORDS;
    let id = has_id.then(|| call.arguments()[0])?;
    let at = slot_at(slot_of(id)?);
    (record[at + NAME] != 0).then(|| (at, record[at + GENERATION]))
}

/// The call with the live id of the slot that its id names, where the
/// generations are the same in some bits.
fn with_bits(b: &Buffers, call: &Call, bits: u32) -> Call {
    let id = call.arguments().first().copied().unwrap_or_default();
    match live_slot(b.record, call) {
        Some((_, generation)) if (generation ^ generation_of(id)) & bits == 0 => {
            call.with_id(id % ID_STEP + ID_STEP.wrapping_mul(generation))
        }
        _ => call.clone(),
    }
}

/// A few wrong generations of one directive are found among all of them; the
/// directives take turns.
#[test]
fn a_wrong_generation_is_found() {
    for (directive, wrong) in [(Directive::Size, 12_345), (Directive::GetBuffer, 65_535)] {
        let mut faulty = Faulty(|b: &mut Buffers, call: &Call| {
            let id = call.arguments().first().copied().unwrap_or_default();
            let is_wrong = call.directive() == directive && generation_of(id).abs_diff(wrong) < 6;
            let call = if is_wrong {
                with_bits(b, call, 0)
            } else {
                call.clone()
            };
            plain(b, &call)
        });
        let mut comparison = Comparison::new(&mut faulty);
        assert!(comparison.generations().is_err());
    }
}

#[test]
fn faults_of_ids_are_found() {
    for bits in [0, 0xff, 0xffff, 0x7_ffff] {
        must_be_found(&format!("generations read by {bits:#x}"), |b, call| {
            let call = with_bits(b, call, bits);
            plain(b, &call)
        });
    }
    for directive in [
        Directive::CreateRegion,
        Directive::IdentRegion,
        Directive::CreatePartition,
        Directive::IdentPartition,
    ] {
        must_be_found("the slot's number for its id", |b, call| {
            let returned = plain(b, call);
            if call.directive() == directive && returned == 0 {
                b.answer[0] %= ID_STEP;
            }
            returned
        });
    }
}

#[test]
fn faults_of_generations_are_found() {
    for (directive, by) in [
        (Directive::DeleteRegion, -1),
        (Directive::DeleteRegion, 1),
        (Directive::DeletePartition, -1),
        (Directive::DeletePartition, 1),
    ] {
        must_be_found("a delete that raises by 0 or 2", |b, call| {
            let slot = live_slot(b.record, call);
            let returned = plain(b, call);
            if let (true, 0, Some((at, _))) = (call.directive() == directive, returned, slot) {
                let generation = &mut b.record[at + GENERATION];
                *generation = generation.wrapping_add_signed(by);
            }
            returned
        });
    }
    for (directive, slot_at) in [
        (Directive::CreateRegion, region_at as fn(usize) -> usize),
        (Directive::CreatePartition, partition_at),
    ] {
        must_be_found("a spent slot starts again", |b, call| {
            let is_sound = sound::check(b.record, b.memory).is_ok();
            let slots = (0..SLOTS).map(|index| slot_at(index) + GENERATION);
            if call.directive() == directive && is_sound && b.answer.len() >= ANSWER_WORDS {
                for at in slots {
                    b.record[at] %= GENERATIONS;
                }
            }
            plain(b, call)
        });
    }
}

/// The used places of the queue.
fn used(record: &mut [u32]) -> &mut [[u32; WAITER_WORDS]] {
    let (places, _) = record[WAITERS_AT..].as_chunks_mut();
    let count = places.iter().take_while(|place| place[TASK] != 0).count();
    &mut places[..count]
}

#[test]
fn faults_of_the_queue_are_found() {
    must_be_found("a queue by whole ids", |b, call| {
        let returned = plain(b, call);
        if call.directive() == Directive::Get && returned == 255 {
            used(b.record).sort_by_key(|place| place[REGION]);
        }
        returned
    });
    must_be_found("a waiter with its region's slot alone", |b, call| {
        let returned = plain(b, call);
        if let (Call::Get { task, .. }, 255) = (call, returned) {
            let mut places = used(b.record).iter_mut();
            let place = places.find(|place| place[TASK] == *task);
            place.unwrap()[REGION] %= ID_STEP;
        }
        returned
    });
    must_be_found("notices of a tick by whole ids", |b, call| {
        let mut before = b.record.to_vec();
        let returned = plain(b, call);
        if call.directive() == Directive::Tick && returned == 0 {
            let places = used(&mut before);
            let region = |task: u32| places.iter().find(|p| p[TASK] == task).map(|p| p[REGION]);
            let (notices, _) = b.answer[NOTICES_AT..].as_chunks_mut::<NOTICE_WORDS>();
            notices.sort_by_key(|notice| region(notice[0]).unwrap_or(u32::MAX));
        }
        returned
    });
}

/// Whether a call on these words is done or refused by its own checks.
fn is_sound(b: &Buffers) -> bool {
    sound::check(b.record, b.memory).is_ok() && b.answer.len() >= ANSWER_WORDS
}

/// Answers a call on sound words with a refusal.
fn refuse(b: &mut Buffers, status: u32) -> usize {
    b.answer[..ANSWER_WORDS].fill(0);
    status as usize
}

/// The call with only some waiters in the queue; the others are put back, and
/// have lost a tick by a tick. Where both are of one region, those that the call
/// finds must leave by it.
fn with_waiters(
    b: &mut Buffers,
    call: &Call,
    mut is_kept: impl FnMut(&[u32; WAITER_WORDS]) -> bool,
) -> usize {
    let all = used(b.record).to_vec();
    let (kept, mut others): (Vec<_>, Vec<_>) = all.into_iter().partition(&mut is_kept);
    let put = |record: &mut [u32], places: &[[u32; WAITER_WORDS]]| {
        record[WAITERS_AT..].fill(0);
        record[WAITERS_AT..][..places.len() * WAITER_WORDS].copy_from_slice(&places.concat());
    };
    put(b.record, &kept);
    let returned = plain(b, call);
    if call.directive() == Directive::Tick {
        others
            .iter_mut()
            .for_each(|place| place[TICKS] = place[TICKS].saturating_sub(1));
    }
    others.extend_from_slice(used(b.record));
    others.sort_by_key(|place| slot_of(place[REGION]));
    put(b.record, &others);
    returned
}

/// Taking waiters out and putting them back is no fault by itself.
#[test]
fn waiters_are_put_back() {
    let mut library = Faulty(|b: &mut Buffers, call: &Call| match call.directive() {
        Directive::Tick if is_sound(b) => with_waiters(b, call, |_| true),
        Directive::Size | Directive::Information if is_sound(b) => {
            with_waiters(b, call, |place| place[REGION] % 2 == 0)
        }
        _ => plain(b, call),
    });
    assert!(run(&mut library, 50_000).is_ok());
}

/// The words of a call's buffers, to make other calls on.
fn copies(b: &Buffers) -> [Vec<u32>; 3] {
    [&*b.record, &*b.memory, &*b.answer].map(<[u32]>::to_vec)
}

fn plain_on(words: &mut [Vec<u32>; 3], call: &Call) -> usize {
    let [record, memory, answer] = words;
    let buffers = Buffers {
        record,
        memory,
        answer,
    };
    Plain.call(buffers, call)
}

/// The old length and the new one, in bytes, of a resize that is done.
fn lengths(b: &Buffers, call: &Call) -> Option<(u32, u32)> {
    let &Call::Resize { id, size, .. } = call else {
        return None;
    };
    let mut words = copies(b);
    let slot = region_at(slot_of(id).filter(|_| is_sound(b))?);
    let page = b.record[slot + PAGE];
    let is_done = plain_on(&mut words, call) == 0;
    // By halves the length stays.
    is_done.then(|| match is_by_halves(b.record[slot + ORDER]) {
        true => (words[2][0], words[2][0]),
        false => (words[2][0], size.div_ceil(page) * page),
    })
}

#[test]
fn faults_of_resizes_that_serve_are_found() {
    type Change = fn(u32, u32) -> bool;
    for (title, is_wrong) in [
        ("a smaller segment", (|old, new| new < old) as Change),
        ("an equal segment", |old, new| new == old),
        ("a larger segment", |old, new| new > old),
    ] {
        must_be_found(&format!("{title} serves nobody"), |b, call| {
            match lengths(b, call) {
                Some((old, new)) if is_wrong(old, new) => with_waiters(b, call, |_| false),
                _ => plain(b, call),
            }
        });
    }
    must_be_found("a refused resize serves", |b, call| {
        let returned = plain(b, call);
        if let (&Call::Resize { id, address, .. }, 13) = (call, returned) {
            let size = b.answer[0];
            plain(b, &Call::Resize { id, address, size });
        }
        returned
    });
    must_be_found("a segment grows after serving", |b, call| {
        match (call, lengths(b, call)) {
            (&Call::Resize { id, address, .. }, Some((old, new))) if new > old => {
                let size = old;
                plain(b, &Call::Resize { id, address, size });
                let notices = b.answer[NOTICES_AT..ANSWER_WORDS].to_vec();
                let returned = plain(b, call);
                if notices[0] != 0 {
                    b.answer[NOTICES_AT..ANSWER_WORDS].copy_from_slice(&notices);
                }
                returned
            }
            _ => plain(b, call),
        }
    });
    must_be_found("a resize that serves has no value", |b, call| {
        let returned = plain(b, call);
        if call.directive() == Directive::Resize && returned == 0 && b.answer[NOTICES_AT] != 0 {
            b.answer[0] = 0;
        }
        returned
    });
}

/// A tick on sound words, or any other call as it is.
fn must_be_found_in_ticks(title: &str, mut fault: impl FnMut(&mut Buffers, &Call) -> usize) {
    must_be_found(title, |b, call| {
        if call.directive() == Directive::Tick && is_sound(b) {
            return fault(b, call);
        }
        plain(b, call)
    });
}

/// The notices of an answer.
fn notices<'a>(b: &'a mut Buffers) -> &'a mut [[u32; NOTICE_WORDS]] {
    let (notices, _) = b.answer[NOTICES_AT..ANSWER_WORDS].as_chunks_mut();
    let count = notices.iter().take_while(|notice| notice[0] != 0).count();
    &mut notices[..count]
}

#[test]
fn faults_of_ticks_that_serve_are_found() {
    let is_away = |place: &[u32; WAITER_WORDS]| place[TICKS] == 1;
    must_be_found_in_ticks("a tick serves nobody", |b, call| {
        with_waiters(b, call, is_away)
    });
    must_be_found_in_ticks("a tick serves only where one left", |b, call| {
        let left = used(b.record).to_vec().into_iter().filter(is_away);
        let left: Vec<u32> = left.map(|place| place[REGION]).collect();
        with_waiters(b, call, |place| left.contains(&place[REGION]))
    });
    must_be_found_in_ticks("a tick serves one region", |b, call| {
        let mut words = copies(b);
        plain_on(&mut words, call);
        let [.., answer] = &words;
        let mut told = answer[NOTICES_AT..ANSWER_WORDS].chunks(NOTICE_WORDS);
        let first = told.find(|notice| notice[0] != 0 && notice[1] == 0);
        let mut places = used(b.record).iter();
        let served = places.find(|place| first.is_some_and(|notice| notice[0] == place[TASK]));
        let region = served.map(|place| place[REGION]);
        with_waiters(b, call, |place| {
            is_away(place) || Some(place[REGION]) == region
        })
    });
    must_be_found_in_ticks("a tick without a time-out serves", |b, call| {
        let places = used(b.record).to_vec();
        let waits = |task: &u32| places.iter().any(|place| place[TASK] == *task);
        let idle = (1..=TASKS as u32).find(|task| !waits(task));
        let (Some(last), Some(task), false) = (places.last(), idle, places.iter().any(is_away))
        else {
            return plain(b, call);
        };
        // A time-out of one more task, of which nobody hears.
        let more = [task, last[REGION], last[WANTED], 0, 255, 1];
        b.record[waiter_at(places.len())..][..WAITER_WORDS].copy_from_slice(&more);
        let returned = plain(b, call);
        let told = &mut b.answer[NOTICES_AT..ANSWER_WORDS];
        told[..NOTICE_WORDS].fill(0);
        told.rotate_left(NOTICE_WORDS);
        returned
    });
    must_be_found_in_ticks("grants before time-outs", |b, call| {
        let returned = plain(b, call);
        notices(b).sort_by_key(|notice| notice[1]);
        returned
    });
    must_be_found_in_ticks("grants by whole ids", |b, call| {
        let places = used(b.record).to_vec();
        let region = |task: u32| places.iter().find(|p| p[TASK] == task).map(|p| p[REGION]);
        let returned = plain(b, call);
        let told = notices(b);
        let away = told.iter().take_while(|notice| notice[1] != 0).count();
        told[away..].sort_by_key(|notice| region(notice[0]));
        returned
    });
}

#[test]
fn faults_of_words_are_found() {
    must_be_found("a refusal changes a memory word", |b, call| {
        let returned = plain(b, call);
        if returned == 9 && call.directive() == Directive::Return {
            b.memory[0] ^= 1;
        }
        returned
    });
    must_be_found("a word after the answer is written", |b, call| {
        let returned = plain(b, call);
        if returned == 0 && call.directive() == Directive::Tick {
            let after = b.answer.as_mut_ptr_range().end;
            // SAFETY: the comparison keeps guard words after each buffer.
            unsafe { after.write_volatile(0) };
        }
        returned
    });
    must_be_found("a get leaves a buffer's links", |b, call| {
        let memory = b.memory.to_vec();
        let returned = plain(b, call);
        if call.directive() == Directive::GetBuffer && returned == 0 {
            let word = b.answer[0] as usize / 4;
            b.memory[word..word + 2].copy_from_slice(&memory[word..word + 2]);
        }
        returned
    });
    must_be_found("a delete clears the map", |b, call| {
        let record = b.record.to_vec();
        let returned = plain(b, call);
        if let (Call::DeleteRegion { id }, 0) = (call, returned) {
            let region = region_at(slot_of(*id).unwrap());
            let start = record[region + START];
            b.memory[start.div_ceil(4) as usize] = 0;
        }
        returned
    });
}

#[test]
fn faults_of_answers_are_found() {
    must_be_found("the last answer word is left", |b, call| {
        let last = b.answer.last().copied();
        let returned = plain(b, call);
        if let (Directive::Tick, Some(last)) = (call.directive(), last) {
            b.answer[b.answer.len() - 1] = last;
        }
        returned
    });
    must_be_found("two notices change places", |b, call| {
        let returned = plain(b, call);
        let is_tick = call.directive() == Directive::Tick;
        if is_tick && returned == 0 && b.answer[NOTICES_AT + 3] != 0 {
            b.answer[NOTICES_AT..NOTICES_AT + 6].rotate_left(3);
        }
        returned
    });
    must_be_found("a long answer is cleared to its end", |b, call| {
        let returned = plain(b, call);
        if call.directive() == Directive::Tick && b.answer.len() > ANSWER_WORDS {
            b.answer[ANSWER_WORDS..].fill(0);
        }
        returned
    });
    must_be_found("a long answer is refused", |b, call| {
        if call.directive() == Directive::Tick && b.answer.len() > ANSWER_WORDS {
            return status::INTERNAL_ERROR as usize;
        }
        plain(b, call)
    });
}

#[test]
fn faults_of_answers_with_25_are_found() {
    must_be_found("unsound words leave the answer", |b, call| {
        let answer = b.answer.to_vec();
        let returned = plain(b, call);
        if call.directive() == Directive::Tick && returned == 25 {
            b.answer.copy_from_slice(&answer);
        }
        returned
    });
    must_be_found("words that are no record clear the answer", |b, call| {
        if call.directive() == Directive::Tick && !is_record(b.record) {
            b.answer.fill(0);
        }
        plain(b, call)
    });
}
