//! Made-up memories, lists of calls and client writes.

use author::{gaps, Author, Random, Style};
use directives::words::MEMORY_WORDS;
use directives::{Call, Directive};
use model::Model;

/// What the calls of one list have in common.
pub struct List {
    style: Style,
    /// How often each directive is chosen.
    weights: Vec<(u32, Directive)>,
}

impl List {
    /// A list over a memory of so many bytes.
    pub fn new(random: &mut Random, bytes: u32) -> List {
        // Some lists make many objects, some delete many, so that slots are used
        // again; some give nothing back, some delete nothing.
        let creates = if random.chance(30) { 4 } else { 1 };
        let deletes = if random.chance(40) { 5 } else { 1 };
        // Some halve and join many small blocks, some have many alignments.
        let halving = random.chance(20);
        let aligning = !halving && random.chance(30);
        let weight = |directive: &Directive| {
            let usual = match directive {
                Directive::Get if halving => 120,
                Directive::Return if halving => 100,
                Directive::Get if aligning => 120,
                Directive::Return if aligning => 50,
                Directive::Resize | Directive::Tick if aligning => 20,
                Directive::Get => 24,
                Directive::Return | Directive::GetBuffer => 14,
                Directive::CreateRegion | Directive::CreatePartition => 12 * creates,
                Directive::DeleteRegion | Directive::DeletePartition => 4 * deletes,
                Directive::Resize | Directive::ReturnBuffer => 10,
                Directive::Tick | Directive::Write => 6,
                _ => 4,
            };
            let can_miss = matches!(
                directive,
                Directive::Return
                    | Directive::ReturnBuffer
                    | Directive::DeleteRegion
                    | Directive::DeletePartition
                    | Directive::Tick
            );
            let misses = can_miss && random.chance(20);
            let weight = random.between(usual / 2, 2 * usual);
            (if misses { 0 } else { weight }, *directive)
        };
        let weights = Directive::ALL.iter().map(weight).collect();
        let mut style = Style {
            odd: random.pick(&[2, 5, 10, 25]),
            odd_choices: 2,
            taken_names: random.pick(&[5, 10, 30]),
            halves: random.pick(&[0, 50, 50, 100]),
            waits: random.pick(&[0, 30, 60, 90]),
            small_gets: random.pick(&[20, 60, 90]),
            alignments: random.pick(&[0, 20, 60]),
            longest: bytes / random.pick(&[1, 2, 3, 8, 16, 24, 32]),
            largest_unit: random.pick(&[8, 16, 64, 64, 256, 4_096]),
        };
        if halving {
            style.odd = 2;
            style.halves = 100;
            style.small_gets = 90;
            style.longest = random.pick(&[200, 600, 2_000]);
            style.largest_unit = random.pick(&[8, 16]);
        }
        if aligning {
            style.odd = random.pick(&[2, 10, 25]);
            style.halves = random.pick(&[0, 20, 50]);
            style.waits = random.pick(&[30, 60]);
            style.small_gets = random.pick(&[60, 90]);
            style.alignments = random.pick(&[50, 80]);
            style.longest = random.pick(&[200, 600, 2_000, bytes]);
            style.largest_unit = random.pick(&[8, 24, 64]);
        }
        List { style, weights }
    }

    /// A call of any directive.
    pub fn call(&self, random: &mut Random, model: &Model) -> Call {
        // Without objects most calls have nothing to do.
        let has_room = gaps(model).iter().any(|(low, high)| high - low >= 40);
        let directive = if has_room && model.region_ids().is_empty() && random.chance(60) {
            Directive::CreateRegion
        } else if has_room && model.partition_ids().is_empty() && random.chance(40) {
            Directive::CreatePartition
        } else {
            random.weighted(&self.weights)
        };
        self.call_of(directive, random, model)
    }

    /// A call of one directive.
    pub fn call_of(&self, directive: Directive, random: &mut Random, model: &Model) -> Call {
        call_in(&self.style, directive, random, model)
    }

    /// A get that mostly may wait, and of which each argument is often wrong.
    pub fn wrong_get(&self, random: &mut Random, model: &Model) -> Call {
        let style = Style {
            odd: 30,
            waits: 90,
            alignments: 50,
            ..self.style.clone()
        };
        call_in(&style, Directive::Get, random, model)
    }
}

fn call_in(style: &Style, directive: Directive, random: &mut Random, model: &Model) -> Call {
    let mut author = Author {
        random,
        style,
        model,
    };
    author.call_of(directive)
}

/// A memory with made-up words; small ones are the most frequent.
pub fn memory(random: &mut Random) -> Vec<u32> {
    let words = match random.between(0, 99) {
        0..=3 => random.between(1, 8),
        4..=29 => random.between(9, 64),
        30..=69 => random.between(65, 512),
        70..=93 => random.between(513, 2_048),
        94..=96 => random.between(2_049, MEMORY_WORDS as u32),
        _ => MEMORY_WORDS as u32,
    };
    let zeroed = random.chance(20);
    let small = random.chance(20);
    let word = |random: &mut Random| match (zeroed, small) {
        (true, _) => 0,
        (_, true) => random.between(0, 9),
        _ => random.word(),
    };
    (0..words).map(|_| word(random)).collect()
}

/// Words that a client writes: most lie in what is held, but words that
/// belong to no map and no chain may be written at any time.
pub fn client_writes(random: &mut Random, model: &Model) -> Vec<(usize, u32)> {
    let mut writes = Vec::new();
    if random.chance(60) {
        let held = held_words(random, model);
        if let Some((first, count)) = held {
            for _ in 0..random.between(1, 4) {
                writes.push((first + random.below(count), random.word()));
            }
            // All of it, with numbers that look like map words or links.
            if random.chance(20) {
                let value = random.pick(&[0, 1, 2, 3, 4, 64, u32::MAX]);
                writes.extend((first..first + count).map(|word| (word, value)));
            }
        }
    }
    if random.chance(20) {
        let bookkeeping = model.bookkeeping();
        let word = random.below(bookkeeping.len());
        if !bookkeeping[word] {
            writes.push((word, random.word()));
        }
    }
    writes
}

/// The first word and the words of a held segment or buffer.
fn held_words(random: &mut Random, model: &Model) -> Option<(usize, usize)> {
    let is_buffer = random.chance(40);
    let (address, length) = if is_buffer {
        let id = random.pick_any(&model.partition_ids())?;
        let address = random.pick_any(&model.held_buffers(id))?;
        (address, model.buffers(id)?.1)
    } else {
        let id = random.pick_any(&model.region_ids())?;
        let segment = random.pick_any(&model.segments_held(id, true))?;
        (segment.address, segment.length)
    };
    Some((address as usize / 4, length as usize / 4))
}
