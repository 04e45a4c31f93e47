//! Tests of the check of a record and a memory alone: a sound state, and for
//! each clause a change that breaks it.

use directives::words::*;
use directives::{Call, Directive};
use libtest::sound::{check, layout, Clause};
use model::Model;
use std::collections::BTreeSet;

/// A record and a memory.
#[derive(Clone)]
struct State {
    record: Vec<u32>,
    memory: Vec<u32>,
}

/// The memory word of region 1's map: start 4.
const MAP_1: usize = 1;
/// The address of partition 1.
const PARTITION_1: u32 = 1_024;

/// Region 1 (start 4, 15 pages of 64, FIFO) with a map of held 2, held 1,
/// free 12 pages; region 2 (start 1,201, priority) all held; region 3 all
/// free; partition 1 with buffers 1,024, 1,048, 1,072, 1,096, the first held;
/// partition 2 with all held. Tasks 1, 2 wait in region 1, and 3, 4, 5 in
/// region 2. The regions are named 5, 6 and 7, the partitions 6 and 8.
fn state() -> State {
    let mut model = Model::new(vec![7; 1_000]);
    let calls = [
        Directive::CreateRegion.call(&[5, 4, 1_020, 64, 0]),
        Directive::CreateRegion.call(&[6, 1_201, 399, 64, 1]),
        Directive::CreateRegion.call(&[7, 1_601, 399, 64, 1]),
        Directive::CreatePartition.call(&[6, PARTITION_1, 100, 24]),
        Directive::CreatePartition.call(&[8, 3_000, 16, 8]),
        Directive::Get.call(&[1, 65, 0, 0, 0, 0, 0]),
        Directive::Get.call(&[1, 1, 0, 0, 0, 0, 0]),
        Directive::Get.call(&[2, 320, 0, 0, 0, 0, 0]),
        Directive::GetBuffer.call(&[1]),
        Directive::GetBuffer.call(&[2]),
        Directive::GetBuffer.call(&[2]),
        Directive::Get.call(&[1, 960, 0, 1, 1, 9, 3]),
        Directive::Get.call(&[1, 960, 0, 1, 2, 1, 3]),
        Directive::Get.call(&[2, 1, 0, 1, 3, 7, 3]),
        Directive::Get.call(&[2, 1, 0, 1, 4, 7, 3]),
        Directive::Get.call(&[2, 1, 0, 1, 5, 8, 3]),
    ];
    made(&mut model, &calls)
}

/// Region 1 (start 4, 8 pages of 64, by halves and priority) with a map of held
/// 1, free 1, held 2, free 4 pages. Tasks 1 and 2 wait for all pages.
fn by_halves() -> State {
    let mut model = Model::new(vec![7; 200]);
    let calls = [
        Directive::CreateRegion.call(&[5, 4, 572, 64, 3]),
        Directive::Get.call(&[1, 64, 0, 0, 0, 0, 0]),
        Directive::Get.call(&[1, 128, 0, 0, 0, 0, 0]),
        Directive::Get.call(&[1, 512, 0, 1, 1, 7, 3]),
        Directive::Get.call(&[1, 257, 0, 1, 2, 8, 3]),
    ];
    made(&mut model, &calls)
}

/// The state after some calls, of which those that may wait do so.
fn made(model: &mut Model, calls: &[Call]) -> State {
    for call in calls {
        let answer = model.call(call);
        let waits = matches!(call, Call::Get { wait: 1, .. });
        assert_eq!(answer.status, if waits { 255 } else { 0 }, "{call:?}");
    }
    State {
        record: model.record().to_vec(),
        memory: model.memory().to_vec(),
    }
}

/// What the check says after a change.
fn after(change: impl Fn(&mut State)) -> Result<(), Clause> {
    changed(state(), change)
}

fn changed(mut state: State, change: impl Fn(&mut State)) -> Result<(), Clause> {
    change(&mut state);
    check(&state.record, &state.memory)
}

fn region(id: usize, field: usize) -> usize {
    region_at(id - 1) + field
}

fn partition(id: usize, field: usize) -> usize {
    partition_at(id - 1) + field
}

fn waiter(place: usize, field: usize) -> usize {
    waiter_at(place - 1) + field
}

/// A change of one word of the record.
fn set(word: usize, value: u32) -> Result<(), Clause> {
    after(|state| state.record[word] = value)
}

/// Gives region 1 another generation, and its two waiters its id.
fn renew(state: &mut State, generation: u32) {
    state.record[region(1, GENERATION)] = generation;
    for place in [1, 2] {
        state.record[waiter(place, REGION)] = id_of(0, generation);
    }
}

/// A change of one map word of region 1.
fn map(page: usize, value: u32) -> Result<(), Clause> {
    after(|state| state.memory[MAP_1 + page] = value)
}

/// A change of one map word of the region by halves.
fn block(page: usize, value: u32) -> Result<(), Clause> {
    changed(by_halves(), |state| state.memory[MAP_1 + page] = value)
}

/// A change of the first map words of the region by halves.
fn blocks(words: &[u32]) -> Result<(), Clause> {
    let map = MAP_1..MAP_1 + words.len();
    changed(by_halves(), |state| {
        state.memory[map.clone()].copy_from_slice(words)
    })
}

/// A change of one word of the record with the region by halves.
fn set_by_halves(word: usize, value: u32) -> Result<(), Clause> {
    changed(by_halves(), |state| state.record[word] = value)
}

/// A change of what task 1 wants of region 1: a size and an alignment.
fn wanted(size: u32, alignment: u32) -> Result<(), Clause> {
    after(|state| {
        state.record[waiter(1, WANTED)..][..2].copy_from_slice(&[size, alignment]);
    })
}

/// A change of one word of the memory, by its address.
fn link(address: u32, value: u32) -> Result<(), Clause> {
    after(|state| state.memory[address as usize / 4] = value)
}

#[test]
fn sound_states_pass() {
    assert_eq!(after(|_| ()), Ok(()));
    assert_eq!(check(&[0; RECORD_WORDS], &[9]), Ok(()));
    assert_eq!(check(&[0; RECORD_WORDS], &[9; MEMORY_WORDS]), Ok(()));
    let state = state();
    assert_eq!(state.memory[MAP_1..MAP_1 + 5], [5, 0, 3, 24, 0]);
    let by_halves = by_halves();
    assert_eq!(by_halves.memory[MAP_1..MAP_1 + 8], [3, 2, 5, 0, 8, 0, 0, 0]);
    assert_eq!(check(&by_halves.record, &by_halves.memory), Ok(()));
}

/// Changes that leave the record and the memory sound.
#[test]
fn sound_changes_pass() {
    // Another name, that of a partition or of a region, or one that differs from
    // another in one bit.
    assert_eq!(set(region(1, NAME), u32::MAX), Ok(()));
    assert_eq!(set(region(1, NAME), 8), Ok(()));
    assert_eq!(set(partition(2, NAME), 5), Ok(()));
    assert_eq!(set(region(1, NAME), 6 + 65_536), Ok(()));
    assert_eq!(set(partition(2, NAME), 6 + (1 << 31)), Ok(()));
    // An order that the waiters allow, ticks, a FIFO priority.
    assert_eq!(set(region(2, ORDER), 0), Ok(()));
    assert_eq!(set(waiter(1, TICKS), u32::MAX), Ok(()));
    assert_eq!(set(waiter(1, TICKS), 0), Ok(()));
    assert_eq!(set(waiter(1, PRIORITY), 255), Ok(()));
    assert_eq!(set(waiter(2, TASK), 16), Ok(()));
    assert_eq!(set(waiter(2, WANTED), 1), Ok(()));
    assert_eq!(set(waiter(5, PRIORITY), 7), Ok(()));
    // A first waiter for whom there is room: no list of calls leaves one.
    assert_eq!(set(waiter(1, WANTED), 768), Ok(()));
    // The page size as an alignment, and wider ones with all pages behind them.
    assert_eq!(wanted(960, 64), Ok(()));
    assert_eq!(wanted(896, 128), Ok(()));
    assert_eq!(wanted(832, 192), Ok(()));
    assert_eq!(wanted(768, 256), Ok(()));
    assert_eq!(wanted(512, 512), Ok(()));
    assert_eq!(wanted(64, 960), Ok(()));
    // The pages of region 2 are from 1,280 on.
    assert_eq!(set(waiter(5, ALIGNMENT), 1_280), Ok(()));
    // Generations of regions without waiters, of partitions and of empty slots.
    assert_eq!(set(region(3, GENERATION), 65_535), Ok(()));
    assert_eq!(set(region(8, GENERATION), 65_536), Ok(()));
    assert_eq!(set(partition(1, GENERATION), 65_535), Ok(()));
    assert_eq!(set(partition(8, GENERATION), 65_536), Ok(()));
    // Region 1 is before region 2, whatever its generation.
    assert_eq!(after(|state| renew(state, 1)), Ok(()));
    assert_eq!(after(|state| renew(state, 65_535)), Ok(()));
    // The free segment of region 1 is held.
    assert_eq!(map(3, 25), Ok(()));
    // Two held segments adjoin.
    let two = |state: &mut State| state.memory[MAP_1..MAP_1 + 2].fill(3);
    assert_eq!(after(two), Ok(()));
    // A partition that is longer by a part of a buffer.
    assert_eq!(set(partition(1, LENGTH), 119), Ok(()));
    // A word that belongs to nothing, and one of a held buffer.
    assert_eq!(link(2_800, 1), Ok(()));
    assert_eq!(link(PARTITION_1, 1), Ok(()));
    // A free buffer's third word.
    assert_eq!(link(PARTITION_1 + 24 + 8, 1), Ok(()));
}

/// Such changes of a region by halves.
#[test]
fn sound_changes_by_halves_pass() {
    // The other order, and a size that is rounded up to all pages.
    assert_eq!(set_by_halves(region(1, ORDER), 2), Ok(()));
    assert_eq!(set_by_halves(waiter(1, WANTED), 257), Ok(()));
    // A free block held, and a held one free whose other half is not.
    assert_eq!(block(1, 3), Ok(()));
    assert_eq!(block(4, 9), Ok(()));
    assert_eq!(block(2, 4), Ok(()));
    // A held block in halves, one of them free.
    assert_eq!(blocks(&[3, 2, 3, 3]), Ok(()));
    assert_eq!(blocks(&[3, 3, 2, 3]), Ok(()));
    // Free neighbours of one size that are no halves of one block.
    assert_eq!(blocks(&[3, 2, 2, 3]), Ok(()));
    assert_eq!(blocks(&[5, 0, 4, 0, 4, 0, 5, 0]), Ok(()));
    // Of other sizes.
    assert_eq!(blocks(&[3, 2, 4, 0, 8]), Ok(()));
    // All held, in one block and in eight.
    assert_eq!(blocks(&[17, 0, 0, 0, 0, 0, 0, 0]), Ok(()));
    assert_eq!(blocks(&[3; 8]), Ok(()));
}

/// Every clause with the changes that break it.
fn broken() -> Vec<(Clause, Vec<Result<(), Clause>>)> {
    use Clause::*;
    let free_of = |state: &State, id| state.record[partition(id, FREE)];
    vec![
        (
            RecordLength,
            vec![
                after(|state| state.record.truncate(RECORD_WORDS - 1)),
                after(|state| state.record.push(0)),
                after(|state| state.record.clear()),
            ],
        ),
        (
            MemoryLength,
            vec![
                check(&[0; RECORD_WORDS], &[]),
                check(&[0; RECORD_WORDS], &[0; MEMORY_WORDS + 1]),
            ],
        ),
        (
            OrderChoice,
            vec![
                set(region(1, ORDER), 4),
                set(region(2, ORDER), u32::MAX),
                set(region(8, ORDER), 4),
                set_by_halves(region(1, ORDER), 4),
            ],
        ),
        (
            RegionSlotNotZero,
            vec![
                set(region(3, NAME), 0),
                set(region(8, START), 1),
                set(region(8, LENGTH), 1),
                set(region(8, PAGE), 8),
                set(region(8, ORDER), 1),
                set(region(8, ORDER), 2),
                set(region(8, ORDER), 3),
                after(|state| {
                    state.record[region(8, GENERATION)] = 65_536;
                    state.record[region(8, PAGE)] = 8;
                }),
            ],
        ),
        (
            EmptyRegionGeneration,
            vec![
                set(region(8, GENERATION), 65_537),
                set(region(8, GENERATION), u32::MAX),
            ],
        ),
        (
            RegionGeneration,
            vec![
                set(region(3, GENERATION), 65_536),
                set(region(3, GENERATION), u32::MAX),
                after(|state| renew(state, 65_536)),
            ],
        ),
        (RegionStartZero, vec![set(region(1, START), 0)]),
        (
            RegionPastMemory,
            vec![
                set(region(3, LENGTH), 4_000 - 1_601 + 1),
                set(region(3, START), u32::MAX),
                set(region(3, START), u32::MAX - 398),
                set(region(3, LENGTH), u32::MAX),
                set(region(3, LENGTH), u32::MAX - 1_600),
            ],
        ),
        (
            PageNotRounded,
            vec![
                set(region(1, PAGE), 0),
                set(region(1, PAGE), 63),
                set(region(1, PAGE), 68),
                set(region(1, PAGE), 4_097),
            ],
        ),
        (
            PageTooLarge,
            vec![
                set(region(1, PAGE), 4_104),
                set(region(1, PAGE), u32::MAX - 7),
            ],
        ),
        (
            RegionWithoutPage,
            vec![
                set(region(1, LENGTH), 0),
                set(region(1, LENGTH), 123),
                set(region(3, PAGE), 4_096),
                set_by_halves(region(1, LENGTH), 123),
            ],
        ),
        (
            PartitionSlotNotZero,
            vec![
                set(partition(1, NAME), 0),
                set(partition(3, START), 4),
                set(partition(3, FRONT), 1),
                set(partition(3, FREE), 1),
                after(|state| {
                    state.record[partition(8, GENERATION)] = 65_536;
                    state.record[partition(8, REAR)] = 8;
                }),
            ],
        ),
        (
            EmptyPartitionGeneration,
            vec![
                set(partition(8, GENERATION), 65_537),
                set(partition(8, GENERATION), u32::MAX),
            ],
        ),
        (
            PartitionGeneration,
            vec![
                set(partition(1, GENERATION), 65_536),
                set(partition(2, GENERATION), u32::MAX),
            ],
        ),
        (PartitionStartZero, vec![set(partition(1, START), 0)]),
        (
            PartitionStartUnaligned,
            vec![
                set(partition(1, START), PARTITION_1 + 1),
                set(partition(1, START), PARTITION_1 - 2),
            ],
        ),
        (
            PartitionPastMemory,
            vec![
                set(partition(2, LENGTH), 1_001),
                set(partition(2, LENGTH), u32::MAX),
                set(partition(2, START), u32::MAX - 3),
                set(partition(2, START), u32::MAX - 15),
            ],
        ),
        (
            BufferSizeUnaligned,
            vec![set(partition(1, SIZE), 25), set(partition(1, SIZE), 7)],
        ),
        (
            BufferSizeTooSmall,
            vec![set(partition(1, SIZE), 0), set(partition(1, SIZE), 4)],
        ),
        (
            PartitionWithoutBuffer,
            vec![
                set(partition(1, SIZE), 104),
                set(partition(1, LENGTH), 23),
                set(partition(1, LENGTH), 0),
            ],
        ),
        (
            RegionsOfOneName,
            vec![
                set(region(1, NAME), 6),
                set(region(1, NAME), 7),
                set(region(3, NAME), 5),
                set(region(2, NAME), 7),
                after(|state| (1..4).for_each(|id| state.record[region(id, NAME)] = 9)),
                // An area that overlaps another does not hide it.
                after(|state| {
                    let slot = region(1, NAME)..region(2, NAME);
                    state.record.copy_within(slot, region(8, NAME));
                }),
            ],
        ),
        (
            PartitionsOfOneName,
            vec![
                set(partition(1, NAME), 8),
                set(partition(2, NAME), 6),
                after(|state| {
                    let planted = [6, 0, 3_200, 8, 8, 0, 0, 0];
                    state.record[partition(8, NAME)..][..PARTITION_WORDS].copy_from_slice(&planted);
                }),
            ],
        ),
        (
            RegionsOverlap,
            vec![
                set(region(2, LENGTH), 401),
                set(region(3, START), 1_599),
                set(region(3, START), 1_100),
            ],
        ),
        (
            PartitionsOverlap,
            vec![after(|state| {
                let planted = [9, 0, PARTITION_1 + 96, 8, 8, 0, 0, 0];
                state.record[partition(8, NAME)..][..PARTITION_WORDS].copy_from_slice(&planted);
            })],
        ),
        (
            RegionAndPartitionOverlap,
            vec![
                set(region(1, LENGTH), 1_021),
                set(partition(1, LENGTH), 178),
                set(partition(1, START), 1_020),
            ],
        ),
        (
            SegmentWithoutPage,
            vec![
                map(0, 0),
                map(0, 1),
                map(3, 0),
                block(1, 0),
                block(0, 1),
                // The high half of the last block is missing.
                block(4, 4),
            ],
        ),
        (
            SegmentPastPages,
            vec![
                map(0, 32),
                map(0, u32::MAX),
                map(3, 26),
                map(3, 27),
                map(3, u32::MAX - 1),
                block(4, 16),
                block(4, 10),
                block(0, u32::MAX),
                // By halves there are fewer pages.
                set(region(1, ORDER), 2),
            ],
        ),
        (
            InnerMapWordNotZero,
            vec![
                map(1, 1),
                map(1, 2),
                map(14, 1),
                map(14, u32::MAX),
                map(0, 7),
                block(3, 2),
                block(5, 1),
                block(7, u32::MAX),
                // A block of four over others.
                block(0, 9),
            ],
        ),
        (
            FreeSegmentsAdjoin,
            vec![
                map(2, 2),
                after(|state| {
                    state.memory[MAP_1 + 3] = 2;
                    state.memory[MAP_1 + 4] = 22;
                }),
            ],
        ),
        (
            BlockNotAPower,
            vec![
                block(4, 6),
                block(4, 7),
                blocks(&[7, 0, 0, 3]),
                blocks(&[3, 6, 0, 0]),
                blocks(&[3, 7, 0, 0]),
            ],
        ),
        (
            BlockMisplaced,
            vec![
                blocks(&[3, 5, 0, 3]),
                blocks(&[3, 4, 0, 3]),
                block(2, 8),
                blocks(&[5, 0, 9, 0, 0, 0, 5, 0]),
            ],
        ),
        (
            FreeHalves,
            vec![
                block(0, 2),
                blocks(&[3, 3, 2, 2]),
                blocks(&[3, 2, 5, 0, 4, 0, 4, 0]),
                blocks(&[8, 0, 0, 0]),
            ],
        ),
        (
            EndsOfEmptyChain,
            vec![
                set(partition(2, FRONT), 3_000),
                set(partition(2, REAR), 3_000),
                set(partition(1, FREE), 0),
            ],
        ),
        (
            FreeCountTooLarge,
            vec![
                set(partition(1, FREE), 5),
                set(partition(1, FREE), u32::MAX),
            ],
        ),
        (
            ChainTooShort,
            vec![
                set(partition(1, FREE), 4),
                set(partition(1, FRONT), 0),
                set(partition(2, FREE), 1),
                link(1_048, 0),
                after(|state| state.record[partition(1, FREE)] = free_of(state, 1) + 1),
            ],
        ),
        (
            NotABuffer,
            vec![
                set(partition(1, FRONT), 1_047),
                set(partition(1, FRONT), 1_000),
                set(partition(1, FRONT), 1_120),
                link(1_048, 1_073),
                link(1_048, 1_120),
                link(1_048, 1_076),
                link(1_048, u32::MAX),
                link(1_072, 64),
            ],
        ),
        (
            BackLink,
            vec![
                link(1_048 + 4, 1_024),
                link(1_072 + 4, 0),
                link(1_096 + 4, 1_048),
                // The chain comes back to its front, or to the same buffer.
                link(1_072, 1_048),
                link(1_048, 1_048),
            ],
        ),
        (
            ChainTooLong,
            vec![set(partition(1, FREE), 2), link(1_096, 1_024)],
        ),
        (
            Rear,
            vec![
                set(partition(1, REAR), 1_072),
                set(partition(1, REAR), 0),
                set(partition(1, REAR), 1_024),
            ],
        ),
        (
            PlaceNotZero,
            vec![
                set(waiter(5, TASK), 0),
                set(waiter(6, REGION), 1),
                set(waiter(16, WANTED), 1),
                set(waiter(6, ALIGNMENT), 64),
                set(waiter(16, ALIGNMENT), 1),
                set(waiter(16, PRIORITY), 1),
                set(waiter(16, TICKS), 1),
            ],
        ),
        (
            UsedPlaceAfterUnused,
            vec![
                after(|state| state.record[waiter(4, TASK)..][..WAITER_WORDS].fill(0)),
                after(|state| {
                    let at = waiter(5, TASK);
                    let place = at..at + WAITER_WORDS;
                    state.record.copy_within(place, waiter(16, TASK));
                    state.record[waiter(16, TASK)] = 16;
                }),
            ],
        ),
        (
            TaskNumber,
            vec![
                set(waiter(1, TASK), 17),
                set(waiter(5, TASK), 32),
                set(waiter(5, TASK), u32::MAX),
            ],
        ),
        (
            TaskTwice,
            vec![
                set(waiter(2, TASK), 1),
                set(waiter(5, TASK), 1),
                set(waiter(1, TASK), 5),
            ],
        ),
        (
            WaiterRegionId,
            vec![
                set(waiter(1, REGION), 0),
                set(waiter(5, REGION), 9),
                set(waiter(5, REGION), 15),
                set(waiter(5, REGION), 16),
                set(waiter(5, REGION), u32::MAX),
            ],
        ),
        (
            WaiterRegionEmpty,
            vec![
                set(waiter(5, REGION), 8),
                after(|state| {
                    state.record[region(8, GENERATION)] = 1;
                    state.record[waiter(5, REGION)] = id_of(7, 1);
                }),
            ],
        ),
        (
            WaiterRegionGeneration,
            vec![
                set(waiter(1, REGION), id_of(0, 1)),
                set(waiter(5, REGION), id_of(1, 65_536)),
                set(region(1, GENERATION), 1),
                after(|state| {
                    renew(state, 2);
                    state.record[waiter(2, REGION)] = id_of(0, 1);
                }),
            ],
        ),
        (
            NothingHeld,
            vec![
                set(waiter(5, REGION), 3),
                after(|state| {
                    state.memory[MAP_1..MAP_1 + 15].fill(0);
                    state.memory[MAP_1] = 30;
                }),
            ],
        ),
        (
            WaiterSizeZero,
            vec![set(waiter(1, WANTED), 0), set(waiter(5, WANTED), 0)],
        ),
        (
            WaiterSizeTooLarge,
            vec![
                set(waiter(1, WANTED), 961),
                set(waiter(1, WANTED), u32::MAX),
                set(waiter(1, WANTED), u32::MAX - 62),
                set_by_halves(waiter(1, WANTED), 513),
                set_by_halves(waiter(2, WANTED), u32::MAX),
                // Beside an alignment that is allowed, or not.
                wanted(961, 64),
                wanted(u32::MAX, 65),
            ],
        ),
        (
            AlignmentByHalves,
            vec![
                set_by_halves(waiter(1, ALIGNMENT), 1),
                set_by_halves(waiter(1, ALIGNMENT), 64),
                set_by_halves(waiter(2, ALIGNMENT), 128),
                set_by_halves(waiter(2, ALIGNMENT), 4_096),
                set_by_halves(waiter(2, ALIGNMENT), u32::MAX),
            ],
        ),
        (
            AlignmentNotMultiple,
            vec![
                wanted(1, 1),
                wanted(1, 8),
                wanted(1, 63),
                wanted(1, 65),
                wanted(1, 96),
                wanted(1, 4_095),
                set(waiter(5, ALIGNMENT), 32),
            ],
        ),
        (
            AlignmentTooLarge,
            vec![
                wanted(1, 4_097),
                wanted(1, 4_160),
                wanted(1, 65_536),
                wanted(1, u32::MAX - 63),
                wanted(1, u32::MAX),
                set(waiter(5, ALIGNMENT), 8_192),
            ],
        ),
        (
            AlignmentWithoutPlace,
            vec![
                // No page is on it.
                wanted(1, 1_024),
                wanted(1, 4_096),
                set(waiter(5, ALIGNMENT), 1_024),
                // Too few are behind the first that is.
                wanted(897, 128),
                wanted(769, 256),
                wanted(960, 256),
                wanted(513, 512),
                wanted(65, 960),
            ],
        ),
        (
            WaiterPriority,
            vec![
                set(waiter(1, PRIORITY), 0),
                set(waiter(1, PRIORITY), 256),
                set(waiter(5, PRIORITY), u32::MAX),
            ],
        ),
        (
            RegionsNotAscending,
            vec![
                set(waiter(5, REGION), 1),
                after(|state| state.record[waiter(1, REGION)..][..2].copy_from_slice(&[2, 1])),
                // By whole ids: 2, 2, 2, 17, 17.
                after(|state| {
                    renew(state, 1);
                    let used = waiter(1, TASK)..waiter(6, TASK);
                    state.record[used].rotate_left(2 * WAITER_WORDS);
                }),
            ],
        ),
        (
            PriorityOrder,
            vec![
                set(waiter(5, PRIORITY), 6),
                set(waiter(3, PRIORITY), 8),
                set_by_halves(waiter(2, PRIORITY), 6),
            ],
        ),
    ]
}

#[test]
fn broken_clauses_are_named() {
    let broken = broken();
    for (clause, results) in &broken {
        for (index, result) in results.iter().enumerate() {
            assert_eq!(*result, Err(*clause), "change {index} for {clause:?}");
        }
    }
    let tried: BTreeSet<Clause> = broken.iter().map(|(clause, _)| *clause).collect();
    assert_eq!(tried, Clause::ALL.iter().copied().collect());
}

/// The layout that the check of a record finds by a division is the one that
/// the model finds by adding pages, or by doubling them.
#[test]
fn layouts_agree() {
    for page in [8, 16, 24, 64, 72, 1_000, 4_096] {
        for start in 1..70 {
            for length in (0..40).chain((page..page + 150).step_by(7)).chain([9_999]) {
                for order in [0, 2] {
                    layout_agrees([start, length, page, order]);
                }
            }
        }
    }
}

fn layout_agrees([start, length, page, order]: [u32; 4]) {
    let mut model = Model::fresh();
    let create = Directive::CreateRegion.call(&[1, start, length, page, order]);
    let answer = model.call(&create);
    let found = layout(start, length, page, order);
    let expected = model.pages(1).map_or(0, |(_, pages)| pages);
    assert_eq!(answer.status, if expected == 0 { 8 } else { 0 });
    assert_eq!(found.pages, expected, "{create:?}");
    if expected > 0 {
        assert_eq!(found.first_page, model.segments(1)[0].address);
        assert_eq!(found.map, (start as usize).div_ceil(4));
    }
}
