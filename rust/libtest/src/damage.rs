//! Made-up damage to a record, a memory or the length of a buffer.

use crate::state::*;
use author::Random;
use directives::words::*;

/// What is left after damage.
#[derive(Clone, Copy, Debug, PartialEq, Eq)]
pub enum Effect {
    /// The record and the memory are unsound.
    Unsound,
    /// The record and the memory are still sound: they describe another state.
    Sound,
    /// Either.
    Any,
    /// The answer has fewer or more words than needed; the record and the
    /// memory are sound.
    WrongAnswer,
}

/// A kind of damage.
pub struct Kind {
    pub title: &'static str,
    pub effect: Effect,
    /// Damages a sound state. Gives nothing if the state has nothing of the
    /// kind that is to be damaged.
    pub apply: Apply,
}

/// Generations of live slots, of empty ones, and of no slot.
const LIVE_GENERATIONS: [u32; 6] = [0, 1, 2, 256, 65_534, 65_535];
const EMPTY_GENERATIONS: [u32; 6] = [0, 1, 2, 256, 65_535, 65_536];
const NO_GENERATIONS: [u32; 4] = [65_537, 131_072, 1 << 31, MAX];

/// Sets one field of a random live region.
fn region_field(
    random: &mut Random,
    state: &mut State,
    field: usize,
    values: &[u32],
) -> Option<()> {
    let at = random.pick_any(&state.regions(true))?;
    state.record[at + field] = random.pick(values);
    Some(())
}

/// Sets one field of a random live partition.
fn partition_field(
    random: &mut Random,
    state: &mut State,
    field: usize,
    values: &[u32],
) -> Option<()> {
    let at = random.pick_any(&state.partitions(true))?;
    state.record[at + field] = random.pick(values);
    Some(())
}

/// Sets one field of a random waiter.
fn waiter_field(
    random: &mut Random,
    state: &mut State,
    field: usize,
    values: &[u32],
) -> Option<()> {
    let at = state.some_waiter(random)?;
    state.record[at + field] = random.pick(values);
    Some(())
}

/// Sets the generation of a random one of some slots.
fn generation(
    random: &mut Random,
    state: &mut State,
    slots: Vec<usize>,
    values: &[u32],
) -> Option<()> {
    let at = random.pick_any(&slots)?;
    state.record[at + GENERATION] = random.pick(values);
    Some(())
}

/// Gives a random one of a kind's live slots a name that none of them has.
fn new_name(random: &mut Random, state: &mut State, slots: Vec<usize>) -> Option<()> {
    let at = random.pick_any(&slots)?;
    let least = random.pick(&[1, 77, MAX - SLOTS as u32]);
    state.record[at + NAME] = state.new_name(&slots, least)?;
    Some(())
}

/// Two of some slots.
fn some_two(random: &mut Random, slots: &[usize]) -> Option<[usize; 2]> {
    let one = random.pick_any(slots)?;
    let others: Vec<usize> = slots.iter().copied().filter(|&at| at != one).collect();
    Some([one, random.pick_any(&others)?])
}

/// Gives one of a kind's live slots the name of another.
fn one_name(random: &mut Random, state: &mut State, slots: Vec<usize>) -> Option<()> {
    let [from, to] = some_two(random, &slots)?;
    state.record[to + NAME] = state.record[from + NAME];
    Some(())
}

/// Gives one of a kind's live slots a name that differs from another's in one
/// bit, and that none of them has.
fn near_name(random: &mut Random, state: &mut State, slots: Vec<usize>) -> Option<()> {
    let [from, to] = some_two(random, &slots)?;
    let names = state.names(&slots);
    let near = (0..32).map(|bit| state.record[from + NAME] ^ 1 << bit);
    let new: Vec<u32> = near
        .filter(|name| *name != 0 && !names.contains(name))
        .collect();
    state.record[to + NAME] = random.pick_any(&new)?;
    Some(())
}

/// Sets one of some fields of a random empty slot to a word that is not 0; its
/// generation is any that an empty slot may keep.
fn empty_field(
    random: &mut Random,
    state: &mut State,
    empty: Vec<usize>,
    fields: &[usize],
) -> Option<()> {
    let at = random.pick_any(&empty)?;
    state.record[at + GENERATION] = random.pick(&EMPTY_GENERATIONS);
    state.record[at + random.pick(fields)] = random.pick(&[1, 8, 1 << 31, MAX]);
    Some(())
}

/// A random segment of a random live region.
fn some_segment(random: &mut Random, state: &State) -> Option<Segment> {
    let region = random.pick_any(&state.regions(true))?;
    random.pick_any(&state.segments(region))
}

/// A random one of the segments of a region that are held, or are free, and
/// have at least so many pages.
fn some_segment_of(
    random: &mut Random,
    state: &State,
    region: usize,
    held: bool,
    least: u32,
) -> Option<Segment> {
    let mut segments = state.segments(region);
    segments.retain(|&(_, pages, is_held)| pages >= least && is_held == held);
    random.pick_any(&segments)
}

/// Whether two blocks that adjoin are the halves of one, by the number of the
/// first page.
fn are_halves(first: u32, [low, high]: &[Segment; 2]) -> bool {
    low.1 == high.1 && first.is_multiple_of(2 * low.1)
}

/// Makes one segment of two that adjoin, held or free.
fn join(random: &mut Random, state: &mut State, [low, high]: [Segment; 2]) {
    let held = random.chance(50);
    state.memory[high.0] = 0;
    state.memory[low.0] = 2 * (low.1 + high.1) + u32::from(held);
}

/// A random partition with at least so many free buffers, and its chain.
fn some_chain(random: &mut Random, state: &State, least: u32) -> Option<(usize, Vec<u32>)> {
    let mut partitions = state.partitions(true);
    partitions.retain(|&at| state.record[at + FREE] >= least);
    let at = random.pick_any(&partitions)?;
    Some((at, state.chain(at)))
}

/// A random partition of which something is held, and one of its held
/// buffers.
fn some_held_buffer(random: &mut Random, state: &State, least: u32) -> Option<(usize, u32)> {
    let buffers = |at: usize| state.record[at + LENGTH] / state.record[at + SIZE];
    let mut partitions = state.partitions(true);
    partitions.retain(|&at| {
        let free = state.record[at + FREE];
        free >= least && free < buffers(at)
    });
    let at = random.pick_any(&partitions)?;
    let mut is_free = vec![false; buffers(at) as usize];
    let address = |index: usize| state.record[at + START] + index as u32 * state.record[at + SIZE];
    for free in state.chain(at) {
        is_free[((free - state.record[at + START]) / state.record[at + SIZE]) as usize] = true;
    }
    let held: Vec<u32> = (0..is_free.len())
        .filter(|&index| !is_free[index])
        .map(address)
        .collect();
    Some((at, random.pick_any(&held)?))
}

/// A word near another, but not the same.
fn near(random: &mut Random, word: u32) -> u32 {
    let by = random.pick(&[1, 2, 3, 4, 8, 16, 64]);
    if random.chance(50) {
        word.wrapping_add(by)
    } else {
        word.wrapping_sub(by)
    }
}

type Apply = fn(&mut Random, &mut State) -> Option<()>;

const fn kind(title: &'static str, effect: Effect, apply: Apply) -> Kind {
    Kind {
        title,
        effect,
        apply,
    }
}

const fn any(title: &'static str, apply: Apply) -> Kind {
    kind(title, Effect::Any, apply)
}

const fn sound(title: &'static str, apply: Apply) -> Kind {
    kind(title, Effect::Sound, apply)
}

const fn unsound(title: &'static str, apply: Apply) -> Kind {
    kind(title, Effect::Unsound, apply)
}

const fn wrong_answer(title: &'static str, apply: Apply) -> Kind {
    kind(title, Effect::WrongAnswer, apply)
}

/// Every kind of damage.
pub const KINDS: &[Kind] = &[
    // Any word.
    any("any record word: any value", |random, state| {
        let word = random.below(RECORD_WORDS);
        state.record[word] = random.word();
        Some(())
    }),
    any("any record word: a near value", |random, state| {
        let word = random.below(RECORD_WORDS);
        state.record[word] = near(random, state.record[word]);
        Some(())
    }),
    any("any record word: one bit", |random, state| {
        let word = random.below(RECORD_WORDS);
        state.record[word] ^= 1 << random.below(32);
        Some(())
    }),
    any("any record word: another record word", |random, state| {
        let word = random.below(RECORD_WORDS);
        state.record[word] = random.pick(&state.record);
        Some(())
    }),
    any(
        "a record word that is not 0: a near value",
        |random, state| {
            let words: Vec<usize> = (0..RECORD_WORDS)
                .filter(|&word| state.record[word] != 0)
                .collect();
            let word = random.pick_any(&words)?;
            state.record[word] = near(random, state.record[word]);
            Some(())
        },
    ),
    any("all record words: any values", |random, state| {
        state.record.fill_with(|| random.word());
        Some(())
    }),
    sound("all record words: 0", |_, state| {
        state.record.fill(0);
        Some(())
    }),
    any("any memory word: any value", |random, state| {
        let word = random.below(state.memory.len());
        state.memory[word] = random.word();
        Some(())
    }),
    any("any memory word: a near value", |random, state| {
        let word = random.below(state.memory.len());
        state.memory[word] = near(random, state.memory[word]);
        Some(())
    }),
    any("all memory words: 0", |_, state| {
        state.memory.fill(0);
        Some(())
    }),
    any(
        "three words of record and memory: any values",
        |random, state| {
            for _ in 0..3 {
                let word = random.below(RECORD_WORDS + state.memory.len());
                let value = random.word();
                match state.record.get_mut(word) {
                    Some(old) => *old = value,
                    None => state.memory[word - RECORD_WORDS] = value,
                }
            }
            Some(())
        },
    ),
    // Lengths.
    unsound("memory of 0 words", |_, state| {
        state.memory.clear();
        Some(())
    }),
    unsound("memory of 16,385 words", |_, state| {
        state.memory.resize(MEMORY_WORDS + 1, 0);
        Some(())
    }),
    sound("memory of 16,384 words", |_, state| {
        state.memory.resize(MEMORY_WORDS, 0);
        Some(())
    }),
    sound("memory cut after the last area", |_, state| {
        let (_, end, _) = *state.areas().last()?;
        state.memory.truncate(end.div_ceil(4) as usize);
        Some(())
    }),
    unsound("memory cut within the last area", |random, state| {
        let (_, end, _) = *state.areas().last()?;
        let words = end.div_ceil(4) as usize - 1;
        state.memory.truncate(words - random.below(words.min(3)));
        Some(())
    }),
    unsound("record of 207 words", |_, state| {
        state.record.truncate(RECORD_WORDS - 1);
        Some(())
    }),
    unsound("record of 209 words", |_, state| {
        state.record.push(0);
        Some(())
    }),
    unsound("record of 176 words, as without generations", |_, state| {
        state.record.truncate(176);
        Some(())
    }),
    unsound("record of 192 words, as without alignments", |_, state| {
        state.record.truncate(192);
        Some(())
    }),
    unsound("record of 0 words", |_, state| {
        state.record.clear();
        Some(())
    }),
    wrong_answer("answer of 54 words", |_, state| {
        state.answer_words = ANSWER_WORDS - 1;
        Some(())
    }),
    wrong_answer("answer of 56 words", |_, state| {
        state.answer_words = ANSWER_WORDS + 1;
        Some(())
    }),
    wrong_answer("answer of 0 words", |_, state| {
        state.answer_words = 0;
        Some(())
    }),
    // Generations of both kinds.
    unsound("region's generation above 65,535", |random, state| {
        let values = [&NO_GENERATIONS[..], &[65_536]].concat();
        generation(random, state, state.regions(true), &values)
    }),
    unsound(
        "empty region slot's generation above 65,536",
        |random, state| generation(random, state, state.regions(false), &NO_GENERATIONS),
    ),
    unsound("partition's generation above 65,535", |random, state| {
        let values = [&NO_GENERATIONS[..], &[65_536]].concat();
        generation(random, state, state.partitions(true), &values)
    }),
    unsound(
        "empty partition slot's generation above 65,536",
        |random, state| generation(random, state, state.partitions(false), &NO_GENERATIONS),
    ),
    sound("generations: any that are allowed", |random, state| {
        state.set_generations(|live| match live {
            true => random.pick(&LIVE_GENERATIONS),
            false => random.pick(&EMPTY_GENERATIONS),
        });
        Some(())
    }),
    sound("generations: the last ones", |random, state| {
        state.set_generations(|live| match live {
            true => 65_535,
            false => random.pick(&[65_535, 65_536]),
        });
        Some(())
    }),
    sound("generations: every empty slot spent", |random, state| {
        state.set_generations(|live| match live {
            true => random.pick(&LIVE_GENERATIONS),
            false => 65_536,
        });
        Some(())
    }),
    // Slots of regions.
    unsound("order above 3", |random, state| {
        region_field(random, state, ORDER, &[4, 5, 256, MAX])
    }),
    unsound("order of an empty slot 1, 2 or 3", |random, state| {
        let at = random.pick_any(&state.regions(false))?;
        state.record[at + ORDER] = random.pick(&[1, 2, 3]);
        Some(())
    }),
    unsound("order of an empty slot above 3", |random, state| {
        let at = random.pick_any(&state.regions(false))?;
        state.record[at + ORDER] = random.pick(&[4, 256, MAX]);
        Some(())
    }),
    any("order of the other kind", |random, state| {
        let at = random.pick_any(&state.regions(true))?;
        state.record[at + ORDER] ^= 2;
        Some(())
    }),
    unsound("empty region slot with a field not 0", |random, state| {
        let fields = [START, LENGTH, PAGE];
        empty_field(random, state, state.regions(false), &fields)
    }),
    unsound("name of a live region 0", |random, state| {
        region_field(random, state, NAME, &[0])
    }),
    sound("name of a live region a new one", |random, state| {
        new_name(random, state, state.regions(true))
    }),
    unsound("region's start 0", |random, state| {
        region_field(random, state, START, &[0])
    }),
    unsound("region's end wraps", |random, state| {
        let at = random.pick_any(&state.regions(true))?;
        let (start, length) = (state.record[at + START], state.record[at + LENGTH]);
        // The end is 0, 1 or near the old end, all after a wrap.
        match random.below(4) {
            0 => state.record[at + START] = length.wrapping_neg(),
            1 => state.record[at + START] = length.wrapping_neg().wrapping_add(1),
            2 => state.record[at + LENGTH] = start.wrapping_neg(),
            _ => state.record[at + LENGTH] = MAX - random.below(3) as u32,
        }
        Some(())
    }),
    unsound("region one byte past the memory", |random, state| {
        let at = random.pick_any(&state.regions(true))?;
        state.record[at + LENGTH] = state.bytes() - state.record[at + START] + 1;
        Some(())
    }),
    unsound("page 0", |random, state| {
        region_field(random, state, PAGE, &[0])
    }),
    unsound("page not rounded", |random, state| {
        let at = random.pick_any(&state.regions(true))?;
        state.record[at + PAGE] -= random.between(1, 7);
        Some(())
    }),
    unsound("page above 4,096", |random, state| {
        region_field(random, state, PAGE, &[4_104, 8_192, 1 << 31, MAX - 7])
    }),
    any("page another multiple of 8", |random, state| {
        let at = random.pick_any(&state.regions(true))?;
        state.record[at + PAGE] = 8 * random.between(1, 512);
        Some(())
    }),
    unsound("region without a page", |random, state| {
        let at = random.pick_any(&state.regions(true))?;
        let (start, page) = (state.record[at + START], state.record[at + PAGE]);
        let least = (start.next_multiple_of(4) + 4).next_multiple_of(page) + page - start;
        state.record[at + LENGTH] = random.pick(&[0, 1, 11, least - 1]);
        Some(())
    }),
    any("region's length near", |random, state| {
        let at = random.pick_any(&state.regions(true))?;
        state.record[at + LENGTH] = near(random, state.record[at + LENGTH]);
        Some(())
    }),
    any("region's start near", |random, state| {
        let at = random.pick_any(&state.regions(true))?;
        state.record[at + START] = near(random, state.record[at + START]);
        Some(())
    }),
    // Slots of partitions.
    unsound(
        "empty partition slot with a field not 0",
        |random, state| {
            let fields = [START, LENGTH, SIZE, FRONT, REAR, FREE];
            empty_field(random, state, state.partitions(false), &fields)
        },
    ),
    unsound("name of a live partition 0", |random, state| {
        partition_field(random, state, NAME, &[0])
    }),
    sound("name of a live partition a new one", |random, state| {
        new_name(random, state, state.partitions(true))
    }),
    unsound("partition's start 0", |random, state| {
        partition_field(random, state, START, &[0])
    }),
    unsound("partition's start not a multiple of 4", |random, state| {
        let at = random.pick_any(&state.partitions(true))?;
        state.record[at + START] += random.between(1, 3);
        Some(())
    }),
    unsound("partition's end wraps", |random, state| {
        let at = random.pick_any(&state.partitions(true))?;
        let (start, length) = (state.record[at + START], state.record[at + LENGTH]);
        match random.below(4) {
            0 => state.record[at + START] = length.wrapping_neg() & !3,
            1 => state.record[at + START] = MAX - 3,
            2 => state.record[at + LENGTH] = start.wrapping_neg(),
            _ => state.record[at + LENGTH] = MAX - random.below(3) as u32,
        }
        Some(())
    }),
    unsound("partition one byte past the memory", |random, state| {
        let at = random.pick_any(&state.partitions(true))?;
        state.record[at + LENGTH] = state.bytes() - state.record[at + START] + 1;
        Some(())
    }),
    unsound("buffer size not a multiple of 4", |random, state| {
        let at = random.pick_any(&state.partitions(true))?;
        state.record[at + SIZE] += random.pick(&[1, 2, 3, 5]);
        Some(())
    }),
    unsound("buffer size below 8", |random, state| {
        partition_field(random, state, SIZE, &[0, 4])
    }),
    any("buffer size another multiple of 4", |random, state| {
        let at = random.pick_any(&state.partitions(true))?;
        let size = state.record[at + SIZE];
        state.record[at + SIZE] = random.pick(&[size + 4, 2 * size, 8, 12]);
        Some(())
    }),
    unsound(
        "partition's length below its buffer size",
        |random, state| {
            let at = random.pick_any(&state.partitions(true))?;
            state.record[at + LENGTH] = random.pick(&[0, 1, state.record[at + SIZE] - 1]);
            Some(())
        },
    ),
    any("partition's length near", |random, state| {
        let at = random.pick_any(&state.partitions(true))?;
        state.record[at + LENGTH] = near(random, state.record[at + LENGTH]);
        Some(())
    }),
    // Names of both kinds.
    unsound("names: two regions of one name", |random, state| {
        one_name(random, state, state.regions(true))
    }),
    unsound("names: two partitions of one name", |random, state| {
        one_name(random, state, state.partitions(true))
    }),
    sound(
        "names: a region and a partition of one name",
        |random, state| {
            let (regions, partitions) = (state.regions(true), state.partitions(true));
            let name = state.new_name(&[&regions[..], &partitions].concat(), 77)?;
            for slots in [regions, partitions] {
                let at = random.pick_any(&slots)?;
                state.record[at + NAME] = name;
            }
            Some(())
        },
    ),
    sound("names: two regions' differ in one bit", |random, state| {
        near_name(random, state, state.regions(true))
    }),
    sound(
        "names: two partitions' differ in one bit",
        |random, state| near_name(random, state, state.partitions(true)),
    ),
    sound("names: two empty slots of a kind alike", |random, state| {
        let generation = random.pick(&EMPTY_GENERATIONS);
        for slots in [state.regions(false), state.partitions(false)] {
            for at in some_two(random, &slots)? {
                state.record[at + GENERATION] = generation;
            }
        }
        Some(())
    }),
    // Overlaps.
    unsound("area one byte into the next one", |random, state| {
        let areas = state.areas();
        let pairs: Vec<(usize, u32)> = areas
            .windows(2)
            .map(|pair| (pair[0].2, pair[1].0 - pair[0].0 + 1))
            .collect();
        let (at, length) = random.pick_any(&pairs)?;
        state.record[at + LENGTH] = length;
        Some(())
    }),
    any("area up to the next one", |random, state| {
        let areas = state.areas();
        let pairs: Vec<(usize, u32)> = areas
            .windows(2)
            .map(|pair| (pair[0].2, pair[1].0 - pair[0].0))
            .collect();
        let (at, length) = random.pick_any(&pairs)?;
        state.record[at + LENGTH] = length;
        Some(())
    }),
    sound("partition added in a gap, all held", |_, state| {
        let (low, high) = state.gap(8)?;
        state.plant_partition(low, high - low)?;
        Some(())
    }),
    unsound("partition added in a live area", |random, state| {
        let (start, end, _) = random.pick_any(&state.areas())?;
        let last = (end - 1) & !3;
        let first = (start & !3).max(4);
        let from = random.pick(&[first, last]);
        if from + 8 > state.bytes() {
            return None;
        }
        state.plant_partition(from, 8)?;
        Some(())
    }),
    unsound("two partitions added, one within the other", |_, state| {
        let (low, _) = state.gap(16)?;
        state.plant_partition(low, 16)?;
        state.plant_partition(low + 8, 8)?;
        Some(())
    }),
    sound("region added in a gap", |random, state| {
        let (low, high) = state.gap(40)?;
        state.plant_region(low, high - low, random.between(0, 3))?;
        Some(())
    }),
    unsound("two regions added, overlapping in one byte", |_, state| {
        // One page at low + 8, and one at low + 24 with its map before.
        let (low, _) = state.gap(48)?;
        let page = (low + 4).next_multiple_of(8);
        state.plant_region(low, page + 8 - low + 1, 0)?;
        state.plant_region(page + 8, 24, 0)?;
        Some(())
    }),
    // Maps.
    any("map: segment's first word at an edge", |random, state| {
        let (at, pages, _) = some_segment(random, state)?;
        state.memory[at] = random.pick(&[
            0,
            1,
            2,
            3,
            MAX,
            MAX - 1,
            1 << 31,
            2 * pages + 2,
            2 * pages + 3,
            2 * pages - 2,
            2 * pages - 1,
        ]);
        Some(())
    }),
    unsound("map: segment of no page", |random, state| {
        let (at, _, held) = some_segment(random, state)?;
        state.memory[at] = u32::from(held);
        Some(())
    }),
    unsound("map: last segment one page too long", |random, state| {
        let region = random.pick_any(&state.regions(true))?;
        let (at, ..) = *state.segments(region).last()?;
        state.memory[at] += 2;
        Some(())
    }),
    unsound("map: segment of 2^31 - 1 pages", |random, state| {
        let (at, ..) = some_segment(random, state)?;
        state.memory[at] = random.pick(&[MAX, MAX - 1]);
        Some(())
    }),
    unsound("map: inner word not 0", |random, state| {
        let region = random.pick_any(&state.regions(true))?;
        let mut segments = state.segments(region);
        segments.retain(|&(_, pages, _)| pages > 1);
        let (at, pages, _) = random.pick_any(&segments)?;
        let inner = random.between(1, pages - 1);
        state.memory[at + inner as usize] = random.pick(&[1, 2, 3, MAX, 1 << 31]);
        Some(())
    }),
    unsound("map: free segment in two", |random, state| {
        let region = random.pick_any(&state.regions_by(false))?;
        let (at, pages, _) = some_segment_of(random, state, region, false, 2)?;
        let first = random.between(1, pages - 1);
        state.memory[at] = 2 * first;
        state.memory[at + first as usize] = 2 * (pages - first);
        Some(())
    }),
    sound("map: held segment in two", |random, state| {
        let region = random.pick_any(&state.regions_by(false))?;
        let (at, pages, _) = some_segment_of(random, state, region, true, 2)?;
        let first = random.between(1, pages - 1);
        state.memory[at] = 2 * first + 1;
        state.memory[at + first as usize] = 2 * (pages - first) + 1;
        Some(())
    }),
    unsound(
        "map: held segment free, beside a free one",
        |random, state| {
            let region = random.pick_any(&state.regions_by(false))?;
            let one_held = |_, two: &[Segment; 2]| two[0].2 != two[1].2;
            let [low, high] = state.some_neighbours(random, region, one_held)?;
            let (at, ..) = if low.2 { low } else { high };
            state.memory[at] -= 1;
            Some(())
        },
    ),
    sound("map: free segment held", |random, state| {
        let region = random.pick_any(&state.regions(true))?;
        let (at, ..) = some_segment_of(random, state, region, false, 1)?;
        state.memory[at] += 1;
        Some(())
    }),
    // Maps by halves.
    sound("halves: any blocks", |random, state| {
        let region = random.pick_any(&state.regions_by(true))?;
        state.draw_blocks(random, region);
        Some(())
    }),
    sound(
        "halves: any blocks, and tasks that wait",
        |random, state| {
            let region = state.some_blocks(random, 2)?;
            let (at, ..) = state.segments(region)[0];
            state.memory[at] |= 1;
            for _ in 0..random.between(1, 4) {
                state.plant_waiter_in(random, region);
            }
            Some(())
        },
    ),
    sound(
        "halves: free neighbours, no halves of one block",
        |random, state| {
            let region = state.some_blocks(random, 4)?;
            let mut blocks = state.equal_blocks(random, region);
            // The second and the third of four, or of the next four.
            let low = 4 * random.below(blocks.len() / 4) + 1;
            for (_, held) in &mut blocks[low..low + 2] {
                *held = false;
            }
            state.draw_map(region, &blocks);
            Some(())
        },
    ),
    sound("halves: held block in halves", |random, state| {
        let region = state.some_blocks(random, 2)?;
        let (at, pages, _) = some_segment_of(random, state, region, true, 2)?;
        state.memory[at] = pages + 1;
        state.memory[at + pages as usize / 2] = pages + random.between(0, 1);
        Some(())
    }),
    unsound("halves: free block in halves", |random, state| {
        let region = state.some_blocks(random, 2)?;
        let (at, pages, _) = some_segment_of(random, state, region, false, 2)?;
        state.memory[at] = pages;
        state.memory[at + pages as usize / 2] = pages;
        Some(())
    }),
    unsound("halves: both halves of a block free", |random, state| {
        let region = state.some_blocks(random, 2)?;
        let [low, high] = state.some_neighbours(random, region, are_halves)?;
        state.memory[low.0] &= !1;
        state.memory[high.0] &= !1;
        Some(())
    }),
    unsound(
        "halves: block not of a power of two pages",
        |random, state| {
            let region = state.some_blocks(random, 4)?;
            let differ = |_, two: &[Segment; 2]| two[0].1 != two[1].1;
            let two = state.some_neighbours(random, region, differ)?;
            join(random, state, two);
            Some(())
        },
    ),
    unsound("halves: held block in no halves", |random, state| {
        let region = state.some_blocks(random, 4)?;
        let (at, pages, _) = some_segment_of(random, state, region, true, 4)?;
        let low = random.pick(&[1, pages / 4, pages / 4 * 3, pages - 1]);
        state.memory[at] = 2 * low + 1;
        state.memory[at + low as usize] = 2 * (pages - low) + 1;
        Some(())
    }),
    unsound(
        "halves: block not at a multiple of its length",
        |random, state| {
            let region = state.some_blocks(random, 4)?;
            let are_apart =
                |first, two: &[Segment; 2]| two[0].1 == two[1].1 && !are_halves(first, two);
            if state.some_neighbours(random, region, are_apart).is_none() {
                let blocks = state.equal_blocks(random, region);
                state.draw_map(region, &blocks);
            }
            let two = state.some_neighbours(random, region, are_apart)?;
            join(random, state, two);
            Some(())
        },
    ),
    unsound("halves: a block lower by a page", |random, state| {
        // Blocks of 1, 2, 4, .. pages in a row, and a single page at the end.
        let region = state.some_blocks(random, 4)?;
        let pages = state.layout(region).pages;
        let mut blocks = vec![(1, true)];
        blocks.extend((1..pages.ilog2()).map(|power| (1 << power, random.chance(70))));
        blocks.push((1, true));
        state.draw_map(region, &blocks);
        Some(())
    }),
    unsound("halves: inner word not 0", |random, state| {
        let region = state.some_blocks(random, 2)?;
        let mut segments = state.segments(region);
        segments.retain(|&(_, pages, _)| pages > 1);
        let (at, pages, _) = random.pick_any(&segments)?;
        let inner = random.pick(&[1, pages / 2, pages - 1]);
        state.memory[at + inner as usize] = random.pick(&[1, 2, 3, pages, MAX]);
        Some(())
    }),
    unsound("halves: last block twice as long", |random, state| {
        let region = state.some_blocks(random, 1)?;
        let (at, pages, _) = *state.segments(region).last()?;
        state.memory[at] += 2 * pages;
        Some(())
    }),
    unsound("halves: last block without its half", |random, state| {
        let region = state.some_blocks(random, 2)?;
        let (at, pages, held) = *state.segments(region).last()?;
        state.memory[at] = match pages {
            1 => 0,
            _ => pages + u32::from(held),
        };
        Some(())
    }),
    // Chains.
    unsound(
        "chain: rear linked to the front, both ways",
        |random, state| {
            let (_, chain) = some_chain(random, state, 1)?;
            let (front, rear) = (chain[0], chain[chain.len() - 1]);
            *state.next(rear) = front;
            *state.before(front) = rear;
            Some(())
        },
    ),
    unsound(
        "chain: rear linked to an earlier buffer",
        |random, state| {
            let (_, chain) = some_chain(random, state, 1)?;
            let rear = chain[chain.len() - 1];
            *state.next(rear) = random.pick(&chain);
            Some(())
        },
    ),
    unsound("chain: a buffer linked to itself", |random, state| {
        let (_, chain) = some_chain(random, state, 1)?;
        let buffer = random.pick(&chain);
        *state.next(buffer) = buffer;
        if random.chance(50) {
            *state.before(buffer) = buffer;
        }
        Some(())
    }),
    unsound(
        "chain: two buffers in a ring, count unchanged",
        |random, state| {
            let (_, chain) = some_chain(random, state, 3)?;
            *state.next(chain[1]) = chain[0];
            *state.before(chain[0]) = chain[1];
            Some(())
        },
    ),
    unsound("chain: count one more", |random, state| {
        let at = random.pick_any(&state.partitions(true))?;
        state.record[at + FREE] += 1;
        Some(())
    }),
    unsound("chain: count one less", |random, state| {
        let (at, _) = some_chain(random, state, 1)?;
        state.record[at + FREE] -= 1;
        Some(())
    }),
    unsound("chain: count 0", |random, state| {
        let (at, _) = some_chain(random, state, 1)?;
        state.record[at + FREE] = 0;
        Some(())
    }),
    unsound("chain: count very large", |random, state| {
        partition_field(random, state, FREE, &[MAX, 1 << 31, 16_385])
    }),
    unsound(
        "chain: no free buffer, but an end not 0",
        |random, state| {
            let mut partitions = state.partitions(true);
            partitions.retain(|&at| state.record[at + FREE] == 0);
            let at = random.pick_any(&partitions)?;
            let start = state.record[at + START];
            let field = random.pick(&[FRONT, REAR]);
            state.record[at + field] = random.pick(&[start, 1, MAX]);
            Some(())
        },
    ),
    unsound("chain: front 0", |random, state| {
        let (at, _) = some_chain(random, state, 1)?;
        state.record[at + FRONT] = 0;
        Some(())
    }),
    unsound("chain: front the second buffer", |random, state| {
        let (at, chain) = some_chain(random, state, 2)?;
        state.record[at + FRONT] = chain[1];
        Some(())
    }),
    unsound("chain: rear wrong", |random, state| {
        let (at, chain) = some_chain(random, state, 1)?;
        let rear = chain[chain.len() - 1];
        let other = if chain.len() > 1 {
            chain[chain.len() - 2]
        } else {
            0
        };
        state.record[at + REAR] = random.pick(&[0, rear + 4, rear - 4, other, MAX]);
        Some(())
    }),
    unsound("chain: back link wrong", |random, state| {
        let (_, chain) = some_chain(random, state, 1)?;
        let place = random.below(chain.len());
        let before = if place > 0 { chain[place - 1] } else { 0 };
        let wrong = random.pick(&[0, chain[place], chain[0], MAX, before + 4]);
        *state.before(chain[place]) = if wrong == before { before ^ 8 } else { wrong };
        Some(())
    }),
    unsound("chain: link to no buffer", |random, state| {
        let (at, chain) = some_chain(random, state, 1)?;
        let (start, length) = (state.record[at + START], state.record[at + LENGTH]);
        let size = state.record[at + SIZE];
        let past = start + length / size * size;
        let some = random.pick(&chain);
        let wrong = random.pick(&[
            some + 4,
            some + 1,
            some - 2,
            past,
            start - 4,
            start.wrapping_sub(size),
            state.bytes(),
            MAX,
            MAX - 3,
        ]);
        let wrong = if wrong == 0 { some + 4 } else { wrong };
        // A wrong link or a wrong front.
        let place = random.below(chain.len() + 1);
        match chain.get(place) {
            Some(&buffer) => *state.next(buffer) = wrong,
            None => state.record[at + FRONT] = wrong,
        }
        Some(())
    }),
    unsound("chain: link to a buffer past the last", |random, state| {
        // The chain goes on to the address after the last buffer, and all
        // links and the count agree with it.
        let (at, mut chain) = some_chain(random, state, 1)?;
        let (start, length) = (state.record[at + START], state.record[at + LENGTH]);
        let size = state.record[at + SIZE];
        let past = start + length / size * size;
        if past + 8 > state.bytes() {
            return None;
        }
        let place = random.below(chain.len());
        if random.chance(50) {
            chain[place] = past;
        } else {
            chain.push(past);
        }
        state.draw_chain(at, &chain);
        Some(())
    }),
    unsound("chain: ends early", |random, state| {
        let (_, chain) = some_chain(random, state, 2)?;
        *state.next(chain[random.below(chain.len() - 1)]) = 0;
        Some(())
    }),
    unsound("chain: goes on to a held buffer", |random, state| {
        let (at, held) = some_held_buffer(random, state, 1)?;
        let rear = state.record[at + REAR];
        *state.next(rear) = held;
        *state.before(held) = rear;
        *state.next(held) = 0;
        Some(())
    }),
    sound(
        "chain: a held buffer in it, count right",
        |random, state| {
            let (at, held) = some_held_buffer(random, state, 0)?;
            let mut chain = state.chain(at);
            chain.insert(random.below(chain.len() + 1), held);
            state.draw_chain(at, &chain);
            Some(())
        },
    ),
    sound("chain: a buffer left out, count right", |random, state| {
        let (at, mut chain) = some_chain(random, state, 1)?;
        chain.remove(random.below(chain.len()));
        state.draw_chain(at, &chain);
        Some(())
    }),
    sound("chain: another order", |random, state| {
        let (at, mut chain) = some_chain(random, state, 2)?;
        for place in 1..chain.len() {
            chain.swap(place, random.below(place + 1));
        }
        state.draw_chain(at, &chain);
        Some(())
    }),
    // Waiters.
    sound("waiter added", |random, state| {
        for _ in 0..random.between(1, 16) {
            state.plant_waiter(random);
        }
        state.waiters().first()?;
        Some(())
    }),
    unsound("waiter: same task twice", |random, state| {
        state.plant_waiter(random)?;
        let first = state.some_waiter(random)?;
        let mut others = state.waiters();
        others.retain(|&at| at != first);
        let second = random.pick_any(&others)?;
        state.record[second + TASK] = state.record[first + TASK];
        Some(())
    }),
    unsound("waiter: task above 16", |random, state| {
        waiter_field(random, state, TASK, &[17, 18, 32, 33, MAX])
    }),
    unsound("waiter: task 0", |random, state| {
        waiter_field(random, state, TASK, &[0])
    }),
    unsound("waiter: region's id of no slot", |random, state| {
        waiter_field(random, state, REGION, &[0, 9, 15, 16, 25, 32, MAX])
    }),
    unsound("waiter: empty region", |random, state| {
        let empty = random.pick_any(&state.regions(false))?;
        let at = state.some_waiter(random)?;
        state.record[at + REGION] = state.id(empty);
        Some(())
    }),
    unsound(
        "waiter: region's id of another generation",
        |random, state| {
            let at = state.some_waiter(random)?;
            let distance = random.pick(&[1, 2, 256, 65_535, 65_536, 1 << 27]);
            let by = ID_STEP * distance;
            let id = &mut state.record[at + REGION];
            *id = match random.chance(50) {
                true => id.wrapping_add(by),
                false => id.wrapping_sub(by),
            };
            Some(())
        },
    ),
    unsound(
        "waiter: its region of the next generation",
        |random, state| {
            let at = state.some_waiter(random)?;
            let region = state.region_of(at)?;
            state.record[region + GENERATION] += 1;
            Some(())
        },
    ),
    unsound("waiter: in a region with nothing held", |random, state| {
        let mut regions = state.regions(true);
        regions.retain(|&region| !state.anything_held(region));
        let region = random.pick_any(&regions)?;
        state.plant_waiter_in(random, region)?;
        Some(())
    }),
    unsound(
        "waiter: all segments of its region freed",
        |random, state| {
            let at = state.some_waiter(random)?;
            let region = state.region_of(at)?;
            let layout = state.layout(region);
            let map = &mut state.memory[layout.map..][..layout.pages as usize];
            map.fill(0);
            map[0] = 2 * layout.pages;
            Some(())
        },
    ),
    unsound("waiter: size 0", |random, state| {
        waiter_field(random, state, WANTED, &[0])
    }),
    unsound("waiter: size above the region's pages", |random, state| {
        let at = state.some_waiter(random)?;
        let region = state.region_of(at)?;
        let page = state.record[region + PAGE];
        let most = page * state.layout(region).pages;
        state.record[at + WANTED] = random.pick(&[most + 1, MAX, MAX - page + 2, 1 << 31]);
        Some(())
    }),
    sound("waiter: size all of the region's pages", |random, state| {
        let at = state.some_waiter(random)?;
        let region = state.region_of(at)?;
        state.record[at + WANTED] = state.record[region + PAGE] * state.layout(region).pages;
        state.record[at + ALIGNMENT] = 0;
        Some(())
    }),
    sound(
        "waiter: size rounded up to all of the region's pages",
        |random, state| {
            let region = state.some_blocks(random, 2)?;
            let (first, ..) = state.segments(region)[0];
            state.memory[first] |= 1;
            let at = state.plant_waiter_in(random, region)?;
            let half = state.record[region + PAGE] * state.layout(region).pages / 2;
            state.record[at + WANTED] = half + random.between(1, half);
            Some(())
        },
    ),
    unsound(
        "waiter: alignment not a multiple of the page",
        |random, state| {
            let (at, region) = state.some_waiter_by(random, false)?;
            let page = state.record[region + PAGE];
            let multiple = random.pick(&state.multiples(region));
            let near = multiple - random.between(1, page - 1);
            state.record[at + ALIGNMENT] = random.pick(&[near, near, 1, 4, page / 2, page - 1]);
            Some(())
        },
    ),
    unsound("waiter: alignment above 4,096", |random, state| {
        let (at, region) = state.some_waiter_by(random, false)?;
        let page = state.record[region + PAGE];
        let next = (4_096 / page + 1) * page;
        let largest = MAX / page * page;
        state.record[at + ALIGNMENT] = random.pick(&[next, next + page, 8 * 4_096 * page, largest]);
        Some(())
    }),
    unsound(
        "waiter: no multiple of its alignment in the region",
        |random, state| {
            let (at, region) = state.some_waiter_by(random, false)?;
            let mut multiples = state.multiples(region);
            multiples.retain(|alignment| state.most_on(region, *alignment) == 0);
            state.record[at + ALIGNMENT] = random.pick_any(&multiples)?;
            state.record[at + WANTED] = 1;
            Some(())
        },
    ),
    unsound(
        "waiter: size above the pages behind its alignment",
        |random, state| {
            let (at, region) = state.some_waiter_by(random, false)?;
            let all = state.most_on(region, 0);
            let mut multiples = state.multiples(region);
            multiples.retain(|alignment| (1..all).contains(&state.most_on(region, *alignment)));
            let alignment = random.pick_any(&multiples)?;
            let most = state.most_on(region, alignment);
            state.record[at + ALIGNMENT] = alignment;
            state.record[at + WANTED] = random.pick(&[most + 1, most + 1, all]);
            Some(())
        },
    ),
    sound(
        "waiter: size all pages behind its alignment",
        |random, state| {
            let (at, region) = state.some_waiter_by(random, false)?;
            let mut multiples = state.multiples(region);
            multiples.retain(|alignment| state.most_on(region, *alignment) > 0);
            let alignment = random.pick_any(&multiples)?;
            state.record[at + ALIGNMENT] = alignment;
            state.record[at + WANTED] = state.most_on(region, alignment);
            Some(())
        },
    ),
    sound("waiter: alignment the page size, or 0", |random, state| {
        let (at, region) = state.some_waiter_by(random, false)?;
        state.record[at + ALIGNMENT] = random.pick(&[0, state.record[region + PAGE]]);
        Some(())
    }),
    unsound("waiter: alignment not 0, by halves", |random, state| {
        let (at, region) = state.some_waiter_by(random, true)?;
        let page = state.record[region + PAGE];
        state.record[at + ALIGNMENT] = random.pick(&[1, page, 2 * page, 4_096, MAX]);
        Some(())
    }),
    unsound("waiter: priority 0", |random, state| {
        waiter_field(random, state, PRIORITY, &[0])
    }),
    unsound("waiter: priority above 255", |random, state| {
        waiter_field(random, state, PRIORITY, &[256, 257, 512, MAX])
    }),
    any("waiter: priority another", |random, state| {
        waiter_field(random, state, PRIORITY, &[1, 2, 100, 254, 255])
    }),
    sound("waiter: ticks another", |random, state| {
        let at = state.some_waiter(random)?;
        state.record[at + TICKS] = random.pick(&[0, 1, 2, MAX]);
        Some(())
    }),
    unsound("queue: used place after an unused one", |random, state| {
        let at = state.some_waiter(random)?;
        let unused = state.unused_place()?;
        // The last waiter goes further on, or a place in between is
        // cleared.
        let last = unused - WAITER_WORDS;
        if at == last || random.chance(50) {
            let to = RECORD_WORDS - WAITER_WORDS;
            state.record.copy_within(last..unused, to);
            state.record[last..unused].fill(0);
        } else {
            state.record[at..at + WAITER_WORDS].fill(0);
        }
        Some(())
    }),
    unsound("queue: unused place with a field not 0", |random, state| {
        let unused = state.unused_place()?;
        let places: Vec<usize> = (unused..RECORD_WORDS).step_by(WAITER_WORDS).collect();
        let at = random.pick(&places);
        let fields: Vec<usize> = (1..WAITER_WORDS).collect();
        state.record[at + random.pick(&fields)] = random.pick(&[1, 2, MAX]);
        Some(())
    }),
    unsound("queue: unused place with an alignment", |random, state| {
        let unused = state.unused_place()?;
        let places: Vec<usize> = (unused..RECORD_WORDS).step_by(WAITER_WORDS).collect();
        let at = random.pick(&places);
        state.record[at + ALIGNMENT] = random.pick(&[1, 8, 64, 4_096, MAX]);
        Some(())
    }),
    any("queue: two waiters change places", |random, state| {
        state.plant_waiter(random)?;
        let (one, other) = (state.some_waiter(random)?, state.some_waiter(random)?);
        for field in 0..WAITER_WORDS {
            state.record.swap(one + field, other + field);
        }
        Some(())
    }),
    unsound(
        "queue: waiters of two regions change places",
        |random, state| {
            for _ in 0..3 {
                state.plant_waiter(random);
            }
            let (first, last) = (*state.waiters().first()?, *state.waiters().last()?);
            if state.record[first + REGION] == state.record[last + REGION] {
                return None;
            }
            for field in 0..WAITER_WORDS {
                state.record.swap(first + field, last + field);
            }
            Some(())
        },
    ),
    sound(
        "queue: lower slot with the higher id, all time out",
        |random, state| {
            state.plant_two_queues(random)?;
            for at in state.waiters() {
                state.record[at + TICKS] = 1;
            }
            Some(())
        },
    ),
    sound(
        "queue: room for the first waiter, no time-out",
        |random, state| {
            state.plant_first_waiters(random)?;
            for at in state.waiters() {
                let ticks = &mut state.record[at + TICKS];
                *ticks += u32::from(*ticks == 1);
            }
            Some(())
        },
    ),
    sound(
        "queue: room for the first waiter, and a time-out",
        |random, state| {
            state.plant_first_waiters(random)?;
            let at = state.plant_waiter(random)?;
            state.record[at + TICKS] = 1;
            Some(())
        },
    ),
    sound(
        "queue: lower slot with the higher id, served",
        |random, state| {
            state.plant_two_queues(random)?;
            let at = state.some_waiter(random)?;
            state.record[at + TICKS] = 1;
            state.plant_first_waiters(random)
        },
    ),
    sound(
        "queue: an alignment stops the first, one behind fits",
        |random, state| {
            state.plant_stopped_waiter(random)?;
            // One more, whom a tick sends away.
            if let Some(at) = state.plant_waiter(random) {
                state.record[at + TICKS] = 1;
            }
            Some(())
        },
    ),
    unsound("queue: by whole ids and not by slots", |random, state| {
        state.plant_two_queues(random)?;
        let used = WAITERS_AT..WAITERS_AT + state.waiters().len() * WAITER_WORDS;
        let places = state.record[used.clone()].chunks(WAITER_WORDS);
        let mut places: Vec<Vec<u32>> = places.map(<[u32]>::to_vec).collect();
        places.sort_by_key(|place| place[REGION]);
        state.record[used].copy_from_slice(&places.concat());
        Some(())
    }),
    unsound(
        "queue: more urgent waiter behind, by priority",
        |random, state| {
            let mut regions = state.regions(true);
            regions
                .retain(|&at| is_by_priority(state.record[at + ORDER]) && state.anything_held(at));
            let region = random.pick_any(&regions)?;
            state.plant_waiter_in(random, region)?;
            state.plant_waiter_in(random, region)?;
            let mut queue = state.waiters();
            queue.retain(|&at| state.region_of(at) == Some(region));
            let (first, last) = (queue[0], queue[queue.len() - 1]);
            state.record[first + PRIORITY] = random.pick(&[2, 255]);
            state.record[last + PRIORITY] = 1;
            Some(())
        },
    ),
    any("queue: region's order the other one", |random, state| {
        let at = random.pick_any(&state.regions(true))?;
        state.record[at + ORDER] ^= 1;
        Some(())
    }),
];
