//! Runs made-up calls through a library and compares every word with the
//! model.
//!
//! Words past the 55th of an answer are left as they were. With status 25 the
//! answer is cleared where the record and the memory are damaged, and left
//! where the words can be no record, the answer is too short or a choice is
//! none.

use crate::call::{Buffers, Library};
use crate::damage::{self, Effect};
use crate::lists::{self, List};
use crate::sound;
use crate::state::State;
use crate::tally::Tally;
use author::cases::Before;
use author::Random;
use directives::words::*;
use directives::{Answer, Call, Directive};
use model::examples::{self, Step};
use model::{Kind, Model};
use std::fmt::Write;

/// Words before and after a buffer that the library must not touch.
const GUARD_WORDS: usize = 16;
const GUARD: u32 = 0xa5c3_96e1;

/// A buffer between guard words.
struct Guarded {
    words: Vec<u32>,
}

impl Guarded {
    fn new(inner: &[u32]) -> Guarded {
        let mut words = vec![GUARD; GUARD_WORDS];
        words.extend_from_slice(inner);
        words.extend([GUARD; GUARD_WORDS]);
        Guarded { words }
    }

    fn inner(&self) -> &[u32] {
        &self.words[GUARD_WORDS..self.words.len() - GUARD_WORDS]
    }

    fn inner_mut(&mut self) -> &mut [u32] {
        let end = self.words.len() - GUARD_WORDS;
        &mut self.words[GUARD_WORDS..end]
    }

    fn is_guarded(&self) -> bool {
        let end = self.words.len() - GUARD_WORDS;
        let guards = self.words[..GUARD_WORDS].iter().chain(&self.words[end..]);
        guards.copied().all(|word| word == GUARD)
    }
}

/// What a call returns and leaves behind.
struct Expected<'a> {
    returned: usize,
    answer: Vec<u32>,
    record: &'a [u32],
    memory: &'a [u32],
}

impl Expected<'_> {
    fn is(&self, returned: usize, record: &[u32], memory: &[u32], answer: &[u32]) -> bool {
        self.returned == returned
            && self.answer == answer
            && self.record == record
            && self.memory == memory
    }
}

/// Compares a library with the model, and counts.
pub struct Comparison<'a, L: Library> {
    library: &'a mut L,
    pub tally: Tally,
}

impl<'a, L: Library> Comparison<'a, L> {
    pub fn new(library: &'a mut L) -> Comparison<'a, L> {
        Comparison {
            library,
            tally: Tally::default(),
        }
    }

    /// Runs the examples of the rules.
    pub fn examples(&mut self) -> Result<(), String> {
        for example in examples::all() {
            let mut model = example.start();
            let mut random = Random::for_list(0, 0);
            let mut answer = Answer::default();
            let tell = |problem| format!("Example {}:\n{problem}", example.title);
            for step in &example.steps {
                match step {
                    Step::Call(call, _) => {
                        answer = self.step(&mut random, &mut model, call).map_err(tell)?;
                    }
                    Step::Set(word, value) => model.client_write(*word, *value),
                    Step::Queue(place) => model.put_waiter(*place),
                    _ => {}
                }
                example.check(step, &model, &answer)?;
            }
        }
        Ok(())
    }

    /// Runs one list of calls with client writes between them, and every
    /// directive on damaged copies of the states that it passes.
    pub fn list(&mut self, seed: u64, index: u64) -> Result<(), String> {
        let mut random = Random::for_list(seed, index);
        let mut model = Model::new(lists::memory(&mut random));
        let list = List::new(&mut random, model.memory_bytes());
        self.tally.lists += 1;
        self.tally.add_memory(model.memory().len());
        let calls = random.between(20, 120);
        for number in 1..=calls {
            let place = || format!("Seed {seed}, list {index}, call {number}");
            self.client_writes(&mut random, &mut model);
            let call = list.call(&mut random, &model);
            self.step(&mut random, &mut model, &call)
                .map_err(|problem| format!("{}:\n{problem}", place()))?;
            if random.chance(5) || number == calls {
                self.damaged(&mut random, &list, &model)
                    .map_err(|problem| format!("{}, then {problem}", place()))?;
            }
        }
        Ok(())
    }

    fn client_writes(&mut self, random: &mut Random, model: &mut Model) {
        for (word, value) in lists::client_writes(random, model) {
            model.client_write(word, value);
            self.tally.client_words += 1;
        }
    }

    /// Makes one call on a sound state, by the library and by the model.
    pub(crate) fn step(
        &mut self,
        random: &mut Random,
        model: &mut Model,
        call: &Call,
    ) -> Result<Answer, String> {
        self.step_with(random, model, call, ANSWER_WORDS)
    }

    /// The same with an answer of some length, at least the usual one.
    fn step_with(
        &mut self,
        random: &mut Random,
        model: &mut Model,
        call: &Call,
        words: usize,
    ) -> Result<Answer, String> {
        let (record, memory) = (model.record(), model.memory().to_vec());
        let before = answer_before(random, call, model, words);
        let found = Before::new(model, call);
        let answer = model.call(call);
        let (record_after, memory_after) = (model.record(), model.memory());
        sound::check(&record_after, memory_after)
            .map_err(|clause| format!("{call:?} leaves the model unsound: {clause}"))?;
        let cases = found.cases(call, &answer, model);
        self.tally.add_sound_call(cases, &answer, model);

        let buffers = [&record[..], &memory, &before];
        if answer.is_internal_error() {
            self.check_refused(buffers, call)?;
            return Ok(answer);
        }
        let expected = Expected {
            returned: match call {
                Call::Read { .. } => answer.words.len(),
                _ => answer.status as usize,
            },
            answer: answer_after(call, &answer, &before),
            record: &record_after,
            memory: memory_after,
        };
        self.check(buffers, call, &expected)?;
        if call.directive().has_answer() && before.len() > ANSWER_WORDS {
            self.tally.long_answers += 1;
        }
        Ok(answer)
    }

    /// Damages a copy of a state and makes a call of each directive on it.
    fn damaged(&mut self, random: &mut Random, list: &List, model: &Model) -> Result<(), String> {
        let kind = &damage::KINDS[random.below(damage::KINDS.len())];
        let mut state = State {
            record: model.record().to_vec(),
            memory: model.memory().to_vec(),
            answer_words: ANSWER_WORDS,
        };
        if (kind.apply)(random, &mut state).is_none() {
            return Ok(());
        }
        let soundness = sound::check(&state.record, &state.memory);
        let wrong_answer = state.answer_words != ANSWER_WORDS;
        self.tally.add_damage(kind.title, soundness, wrong_answer);
        let as_meant = match kind.effect {
            Effect::Unsound => soundness.is_err(),
            Effect::Sound => soundness.is_ok() && !wrong_answer,
            Effect::WrongAnswer => soundness.is_ok() && wrong_answer,
            Effect::Any => true,
        };
        let result = match soundness {
            _ if !as_meant => Err(format!("{:?} is meant, not {soundness:?}", kind.effect)),
            Err(_) => self.on_unsound(random, list, model, &state),
            Ok(()) => self.on_sound(random, list, &state),
        };
        result.map_err(|problem| format!("damage '{}':\n{problem}", kind.title))
    }

    /// Makes a call of each directive on unsound words, as if they were those
    /// of the model.
    fn on_unsound(
        &mut self,
        random: &mut Random,
        list: &List,
        model: &Model,
        state: &State,
    ) -> Result<(), String> {
        for &directive in Directive::ALL {
            let call = list.call_of(directive, random, model);
            self.refused(random, state, &call)?;
        }
        Ok(())
    }

    /// Makes a call of each directive on sound words that no call has left,
    /// and a few calls that go on from there.
    fn on_sound(&mut self, random: &mut Random, list: &List, state: &State) -> Result<(), String> {
        let mut found = Model::from_record(&state.record, &state.memory);
        if found.record() != state.record[..] || found.memory() != state.memory {
            return Err("the model found in the words has others".to_string());
        }
        for &directive in Directive::ALL {
            let call = list.call_of(directive, random, &found);
            if directive.has_answer() && state.answer_words < ANSWER_WORDS {
                self.refused(random, state, &call)?;
            } else {
                let words = state.answer_words.max(ANSWER_WORDS);
                self.step_with(random, &mut found.clone(), &call, words)?;
            }
        }
        // No list of calls leaves room for a first waiter.
        let resizes = if found.regions_to_serve().is_empty() {
            0
        } else {
            4
        };
        for _ in 0..resizes {
            let call = list.call_of(Directive::Resize, random, &found);
            self.step(random, &mut found.clone(), &call)?;
        }
        self.on_waiters(random, list, &found)?;
        // A short list leaves few blocks.
        let calls = if has_many_blocks(&found) { 16 } else { 0 };
        for _ in 0..calls {
            let directive = random.pick(&[Directive::Get, Directive::Return]);
            let call = list.call_of(directive, random, &found);
            self.step(random, &mut found, &call)?;
        }
        for _ in 0..random.between(0, 8) {
            let call = list.call(random, &found);
            self.step(random, &mut found, &call)?;
        }
        Ok(())
    }

    /// Makes gets in which much is wrong, and calls that serve. Few lists have
    /// tasks that wait, and fewer such with an alignment.
    fn on_waiters(
        &mut self,
        random: &mut Random,
        list: &List,
        found: &Model,
    ) -> Result<(), String> {
        let waiters = found.waiters();
        let gets = if waiters.is_empty() { 0 } else { 12 };
        for _ in 0..gets {
            let call = list.wrong_get(random, found);
            self.step(random, &mut found.clone(), &call)?;
        }
        let has_alignment = waiters.iter().any(|waiter| waiter[ALIGNMENT] != 0);
        let calls = if has_alignment { 6 } else { 0 };
        for _ in 0..calls {
            let serving = [Directive::Return, Directive::Resize, Directive::Tick];
            let call = list.call_of(random.pick(&serving), random, found);
            self.step(random, &mut found.clone(), &call)?;
        }
        Ok(())
    }

    /// Makes a call that must be answered 25 and must change nothing.
    fn refused(&mut self, random: &mut Random, state: &State, call: &Call) -> Result<(), String> {
        let words = match call {
            Call::Read { .. } => random.below(60),
            _ => state.answer_words,
        };
        let before: Vec<u32> = (0..words).map(|_| random.word()).collect();
        self.check_refused([&state.record, &state.memory, &before], call)
    }

    /// The same with an answer: record, memory and answer before the call.
    fn check_refused(&mut self, buffers: [&[u32]; 3], call: &Call) -> Result<(), String> {
        let [record, memory, before] = buffers;
        let returned = match call {
            Call::Read { .. } => 0,
            _ => status::INTERNAL_ERROR as usize,
        };
        let is_cleared = call.directive().has_answer()
            && before.len() >= ANSWER_WORDS
            && !call.has_wrong_choice()
            && is_record(record);
        let mut answer = before.to_vec();
        if is_cleared {
            answer[..ANSWER_WORDS].fill(0);
        }
        let expected = Expected {
            returned,
            answer,
            record,
            memory,
        };
        self.check(buffers, call, &expected)?;
        if call.directive().has_answer() {
            self.tally.add_internal_error(is_cleared);
        }
        Ok(())
    }

    /// Makes a call by the library and compares all that it leaves.
    fn check(
        &mut self,
        buffers: [&[u32]; 3],
        call: &Call,
        expected: &Expected,
    ) -> Result<(), String> {
        let [mut record, mut memory, mut answer] = buffers.map(Guarded::new);
        let buffers = Buffers {
            record: record.inner_mut(),
            memory: memory.inner_mut(),
            answer: answer.inner_mut(),
        };
        let returned = self.library.call(buffers, call);
        self.tally.add_call(call.directive(), returned);

        let mut problems = String::new();
        for (name, buffer) in [
            ("record", &record),
            ("memory", &memory),
            ("answer", &answer),
        ] {
            if !buffer.is_guarded() {
                let _ = writeln!(problems, "  written outside the {name}");
            }
        }
        let (record, memory, answer) = (record.inner(), memory.inner(), answer.inner());
        if problems.is_empty() && expected.is(returned, record, memory, answer) {
            return Ok(());
        }
        if returned != expected.returned {
            let wanted = expected.returned;
            let _ = writeln!(problems, "  returned {returned}, expected {wanted}");
        }
        let plain = |word: usize| word.to_string();
        let title = |word: usize| format!("{word} ({})", record_word_title(word));
        differences(&mut problems, "answer", answer, &expected.answer, plain);
        differences(&mut problems, "record", record, expected.record, title);
        differences(&mut problems, "memory", memory, expected.memory, plain);
        Err(format!("{call:?}\n{problems}"))
    }
}

/// Whether a region by halves has at least four blocks.
fn has_many_blocks(model: &Model) -> bool {
    let mut ids = model.region_ids().into_iter();
    ids.any(|id| model.kind(id) == Some(Kind::Halves) && model.segments(id).len() >= 4)
}

/// Made-up words for the answer before a call: as many as asked for, or for a
/// read some room for words.
fn answer_before(random: &mut Random, call: &Call, model: &Model, words: usize) -> Vec<u32> {
    let count = match call {
        Call::Read { id, address } => {
            let segments = model.segments(*id);
            let segment = segments.iter().find(|segment| segment.address == *address);
            let length = segment.map_or(0, |segment| segment.length as usize / 4);
            match random.below(4) {
                0 => length,
                1 => length + random.below(20),
                2 => random.below(length + 1),
                _ => random.below(3),
            }
        }
        _ => words,
    };
    (0..count).map(|_| random.word()).collect()
}

/// The words that a call leaves in the answer.
fn answer_after(call: &Call, answer: &Answer, before: &[u32]) -> Vec<u32> {
    let mut after = before.to_vec();
    match call {
        Call::Write { .. } => {}
        Call::Read { .. } => {
            let count = answer.words.len().min(after.len());
            after[..count].copy_from_slice(&answer.words[..count]);
        }
        _ => after[..ANSWER_WORDS].copy_from_slice(&answer.to_words()),
    }
    after
}

/// Tells in which words two buffers differ, up to a few.
fn differences(
    problems: &mut String,
    name: &str,
    found: &[u32],
    expected: &[u32],
    title: impl Fn(usize) -> String,
) {
    if found == expected {
        return;
    }
    const SHOWN: usize = 8;
    let words = (0..found.len()).filter(|&word| found[word] != expected[word]);
    for word in words.clone().take(SHOWN) {
        let (is, wanted) = (found[word], expected[word]);
        let _ = writeln!(
            problems,
            "  {name} word {} is {is}, expected {wanted}",
            title(word)
        );
    }
    let more = words.count().saturating_sub(SHOWN);
    if more > 0 {
        let _ = writeln!(problems, "  and {more} more words of the {name}");
    }
}
