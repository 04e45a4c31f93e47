//! Where things stand in the record and in an answer, and the numbers of the
//! statuses.

/// Slots for regions, and for partitions.
pub const SLOTS: usize = 8;
/// The generations of a slot are below this; an empty slot of this one is
/// spent.
pub const GENERATIONS: u32 = 65_536;
/// An id is its slot's number, from 1, plus this times the slot's generation.
pub const ID_STEP: u32 = 16;
/// Tasks that may wait, and places for waiters.
pub const TASKS: usize = 16;
/// The orders of a region are below this.
pub const ORDERS: u32 = 4;
/// The most words of a memory; the least is 1.
pub const MEMORY_WORDS: usize = 16_384;

/// The words of a record.
pub const RECORD_WORDS: usize = 208;
/// The words of a region's slot.
pub const REGION_WORDS: usize = 6;
/// The words of a partition's slot.
pub const PARTITION_WORDS: usize = 8;
/// The words of a waiter's place.
pub const WAITER_WORDS: usize = 6;
/// Where the partitions start in a record.
pub const PARTITIONS_AT: usize = SLOTS * REGION_WORDS;
/// Where the waiters start in a record.
pub const WAITERS_AT: usize = PARTITIONS_AT + SLOTS * PARTITION_WORDS;

// The words of a region's slot ..
pub const NAME: usize = 0;
pub const GENERATION: usize = 1;
pub const START: usize = 2;
pub const LENGTH: usize = 3;
pub const PAGE: usize = 4;
pub const ORDER: usize = 5;
// .. of a partition's, after the first four ..
pub const SIZE: usize = 4;
pub const FRONT: usize = 5;
pub const REAR: usize = 6;
pub const FREE: usize = 7;
// .. and of a waiter's place. `REGION` is the region's whole id.
pub const TASK: usize = 0;
pub const REGION: usize = 1;
pub const WANTED: usize = 2;
pub const ALIGNMENT: usize = 3;
pub const PRIORITY: usize = 4;
pub const TICKS: usize = 5;

/// The words of an answer: a value, six information values, 16 notices.
pub const ANSWER_WORDS: usize = 55;
/// Where the information values start in an answer.
pub const INFORMATION_AT: usize = 1;
/// Where the notices start in an answer.
pub const NOTICES_AT: usize = 7;
/// The words of a notice: task, status, address.
pub const NOTICE_WORDS: usize = 3;

/// The first word of the slot of the region with this index, from 0.
pub fn region_at(index: usize) -> usize {
    index * REGION_WORDS
}

/// The first word of the slot of the partition with this index, from 0.
pub fn partition_at(index: usize) -> usize {
    PARTITIONS_AT + index * PARTITION_WORDS
}

/// The first word of the place of the waiter with this index, from 0.
pub fn waiter_at(index: usize) -> usize {
    WAITERS_AT + index * WAITER_WORDS
}

/// The id of an object in the slot with this index, from 0.
pub fn id_of(index: usize, generation: u32) -> u32 {
    index as u32 + 1 + ID_STEP * generation
}

/// The index, from 0, of the slot that an id names; none where there is no
/// slot with that number.
pub fn slot_of(id: u32) -> Option<usize> {
    let number = (id % ID_STEP) as usize;
    (1..=SLOTS).contains(&number).then(|| number - 1)
}

/// The generation that an id names.
pub fn generation_of(id: u32) -> u32 {
    id / ID_STEP
}

/// Whether a region of this order serves its queue by priority, and not by
/// arrival.
pub fn is_by_priority(order: u32) -> bool {
    order % 2 == 1
}

/// Whether a region of this order is cut in halves, and not by pages.
pub fn is_by_halves(order: u32) -> bool {
    order >= 2
}

/// Whether words can be a record at all, sound or not: as many as a record
/// has, and each order a choice.
pub fn is_record(words: &[u32]) -> bool {
    let is_order = |index: usize| words[region_at(index) + ORDER] < ORDERS;
    words.len() == RECORD_WORDS && (0..SLOTS).all(is_order)
}

/// What a word of a record means, for messages.
pub fn record_word_title(word: usize) -> String {
    const REGION_TITLES: [&str; REGION_WORDS] =
        ["name", "generation", "start", "length", "page", "order"];
    const PARTITION_TITLES: [&str; PARTITION_WORDS] = [
        "name",
        "generation",
        "start",
        "length",
        "size",
        "front",
        "rear",
        "free",
    ];
    const WAITER_TITLES: [&str; WAITER_WORDS] =
        ["task", "region", "size", "alignment", "priority", "ticks"];
    let title = |kind: &str, at: usize, fields: &[&str]| {
        let index = at / fields.len() + 1;
        format!("{kind} {index} {}", fields[at % fields.len()])
    };
    if word < PARTITIONS_AT {
        title("region", word, &REGION_TITLES)
    } else if word < WAITERS_AT {
        title("partition", word - PARTITIONS_AT, &PARTITION_TITLES)
    } else {
        title("waiter", word - WAITERS_AT, &WAITER_TITLES)
    }
}

/// The numbers of the statuses.
pub mod status {
    pub const SUCCESSFUL: u32 = 0;
    pub const INVALID_NAME: u32 = 3;
    pub const INVALID_ID: u32 = 4;
    pub const TOO_MANY: u32 = 5;
    pub const TIMEOUT: u32 = 6;
    pub const INVALID_SIZE: u32 = 8;
    pub const INVALID_ADDRESS: u32 = 9;
    pub const INVALID_NUMBER: u32 = 10;
    pub const NOT_DEFINED: u32 = 11;
    pub const RESOURCE_IN_USE: u32 = 12;
    pub const UNSATISFIED: u32 = 13;
    pub const INCORRECT_STATE: u32 = 14;
    pub const INVALID_PRIORITY: u32 = 19;
    pub const INTERNAL_ERROR: u32 = 25;
    pub const WAITING: u32 = 255;
}

#[cfg(test)]
mod tests {
    use super::*;

    #[test]
    fn the_parts_fill_the_record_and_the_answer() {
        assert_eq!(waiter_at(TASKS), RECORD_WORDS);
        assert_eq!(NOTICES_AT + TASKS * NOTICE_WORDS, ANSWER_WORDS);
    }

    #[test]
    fn words_have_titles() {
        let titles = [
            (region_at(0) + NAME, "region 1 name"),
            (region_at(1) + GENERATION, "region 2 generation"),
            (region_at(7) + ORDER, "region 8 order"),
            (partition_at(0) + GENERATION, "partition 1 generation"),
            (partition_at(0) + FRONT, "partition 1 front"),
            (waiter_at(0) + REGION, "waiter 1 region"),
            (waiter_at(1) + ALIGNMENT, "waiter 2 alignment"),
            (RECORD_WORDS - 1, "waiter 16 ticks"),
        ];
        for (word, title) in titles {
            assert_eq!(record_word_title(word), title);
        }
    }

    #[test]
    fn ids_have_a_slot_and_a_generation() {
        let ids = [
            (1, 0, 0),
            (8, 7, 0),
            (17, 0, 1),
            (34, 1, 2),
            (1_048_561, 0, 65_535),
            (1_048_577, 0, 65_536),
        ];
        for (id, slot, generation) in ids {
            assert_eq!(id_of(slot, generation), id);
            assert_eq!((slot_of(id), generation_of(id)), (Some(slot), generation));
        }
        for id in [0, 9, 15, 16, 25, 31, 1_048_576, u32::MAX] {
            assert_eq!(slot_of(id), None, "{id}");
        }
    }
}
