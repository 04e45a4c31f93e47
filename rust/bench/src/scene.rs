//! What is timed: a record, a memory and a call for each row and load.

use libtest::call::Call;
use libtest::sound::{self, layout, Layout};
use libtest::words::*;

/// How full the record and the maps are.
#[derive(Clone, Copy, Debug, PartialEq, Eq)]
pub enum Load {
    OneSmall,
    OneLarge,
    FullSmall,
    FullLarge,
}

impl Load {
    pub const ALL: [Load; 4] = [
        Load::OneSmall,
        Load::OneLarge,
        Load::FullSmall,
        Load::FullLarge,
    ];

    /// A short name without spaces.
    pub fn name(self) -> &'static str {
        match self {
            Load::OneSmall => "one-small",
            Load::OneLarge => "one-large",
            Load::FullSmall => "full-small",
            Load::FullLarge => "full-large",
        }
    }

    pub fn title(self) -> &'static str {
        match self {
            Load::OneSmall => "one object, small: a region of 15 pages or a partition of 8 buffers",
            Load::OneLarge => {
                "one object, large: a region of 5,461 pages or a partition of 8,191 buffers"
            }
            Load::FullSmall => {
                "full tables, small: 8 regions of 15 pages, 8 partitions of 8 buffers, 15 waiters"
            }
            Load::FullLarge => {
                "full tables, large: 8 regions of 341 pages, 8 partitions of 511 buffers, 15 waiters"
            }
        }
    }

    fn is_full(self) -> bool {
        matches!(self, Load::FullSmall | Load::FullLarge)
    }

    /// Start, length and page size of the region with this index.
    fn region_shape(self, index: u32) -> (u32, u32, u32) {
        match self {
            Load::OneSmall => (4, 1_020, 64),
            Load::OneLarge => (4, 65_532, 8),
            Load::FullSmall => (index * 4_096 + 4, 1_020, 64),
            Load::FullLarge => (index * 4_096 + 4, 4_092, 8),
        }
    }

    /// Start, length and buffer size of the partition with this index. The
    /// areas of the partitions follow those of the regions.
    fn partition_shape(self, index: u32) -> (u32, u32, u32) {
        let start = (index + 8) * 4_096 + 4;
        match self {
            Load::OneSmall => (4, 192, 24),
            Load::OneLarge => (4, 65_532, 8),
            Load::FullSmall => (start, 192, 24),
            Load::FullLarge => (start, 4_092, 8),
        }
    }
}

/// A call on a record and a memory.
pub struct Scene {
    pub row: &'static str,
    pub load: Load,
    pub record: Vec<u32>,
    pub memory: Vec<u32>,
    pub call: Call,
    /// What the call must return.
    pub returned: usize,
    /// Whether the memory must be set back before the call is made again. A
    /// create writes the same words again whatever they were.
    pub restores_memory: bool,
}

/// What a region's map or a partition's chain is like.
#[derive(Clone, Copy, PartialEq, Eq)]
enum Fill {
    /// Nothing is held.
    Free,
    /// A region: held and free segments of one page each take turns, and the
    /// last two pages are free, by halves the last four. A partition: only the
    /// buffer in the middle is held.
    Mixed,
}

struct Builder {
    load: Load,
    record: Vec<u32>,
    memory: Vec<u32>,
    waiters: usize,
}

impl Builder {
    fn new(load: Load) -> Builder {
        Builder {
            load,
            record: vec![0; RECORD_WORDS],
            memory: vec![0; MEMORY_WORDS],
            waiters: 0,
        }
    }

    fn region(&mut self, index: u32, fill: Fill, order: u32) {
        let (start, length, page) = self.load.region_shape(index);
        let slot = [name_of(index), 0, start, length, page, order];
        self.record[region_at(index as usize)..][..REGION_WORDS].copy_from_slice(&slot);
        let layout = self.layout(index);
        let map = &mut self.memory[layout.map..][..layout.pages as usize];
        match fill {
            Fill::Free => map[0] = 2 * layout.pages,
            Fill::Mixed => {
                let last = last_pages(order);
                let singles = map.len() - last as usize;
                for (page, word) in map[..singles].iter_mut().enumerate() {
                    *word = if page % 2 == 0 { 3 } else { 2 };
                }
                map[singles] = 2 * last;
            }
        }
    }

    /// The layout of a region; of one that is not there, by pages.
    fn layout(&self, index: u32) -> Layout {
        let (start, length, page) = self.load.region_shape(index);
        layout(start, length, page, self.order(index))
    }

    fn order(&self, index: u32) -> u32 {
        self.record[region_at(index as usize) + ORDER]
    }

    fn partition(&mut self, index: u32, fill: Fill) {
        let (start, length, size) = self.load.partition_shape(index);
        let count = length / size;
        let mut chain: Vec<u32> = (0..count).map(|buffer| start + buffer * size).collect();
        if fill == Fill::Mixed {
            chain.remove(count as usize / 2);
        }
        let mut before = 0;
        for (place, &address) in chain.iter().enumerate() {
            let word = address as usize / 4;
            self.memory[word] = chain.get(place + 1).copied().unwrap_or(0);
            self.memory[word + 1] = before;
            before = address;
        }
        let slot = [
            name_of(index),
            0,
            start,
            length,
            size,
            chain[0],
            before,
            chain.len() as u32,
        ];
        self.record[partition_at(index as usize)..][..PARTITION_WORDS].copy_from_slice(&slot);
    }

    /// Adds a waiter; regions must come by rising index.
    fn waiter(&mut self, index: u32, pages: u32, ticks: u32) {
        let (_, _, page) = self.load.region_shape(index);
        let task = self.waiters as u32 + 1;
        let place = [task, id_of(index as usize, 0), pages * page, 0, 5, ticks];
        self.record[waiter_at(self.waiters)..][..WAITER_WORDS].copy_from_slice(&place);
        self.waiters += 1;
    }

    fn pages(&self, index: u32) -> u32 {
        self.layout(index).pages
    }

    /// The address of the last held segment of a mixed region.
    fn last_held(&self, index: u32) -> u32 {
        let (_, _, page) = self.load.region_shape(index);
        let layout = self.layout(index);
        let singles = layout.pages - last_pages(self.order(index));
        layout.first_page + (singles - 1) / 2 * 2 * page
    }

    /// The address of the held buffer of a mixed partition.
    fn held_buffer(&self, index: u32) -> u32 {
        let (start, length, size) = self.load.partition_shape(index);
        start + length / size / 2 * size
    }
}

/// The pages of the last free segment of a mixed region.
fn last_pages(order: u32) -> u32 {
    if is_by_halves(order) {
        4
    } else {
        2
    }
}

/// The waiters of full tables.
const FULL_QUEUE: u32 = 15;
/// Ticks that a waiter has left, where it is not sent away.
const MANY_TICKS: u32 = 9;

/// The name of the object with an index; no two are the same.
fn name_of(index: u32) -> u32 {
    100 + index
}

/// Which objects a row works on.
#[derive(Clone, Copy, PartialEq, Eq)]
enum Target {
    Region,
    Partition,
}

/// The rows, in the order of the table.
pub const ROWS: [&str; 23] = [
    "region create",
    "region ident",
    "region delete",
    "get segment",
    "get segment, by halves",
    "get segment, aligned",
    "get segment, waits",
    "return segment",
    "return segment, by halves",
    "return segment, serves one",
    "segment size",
    "resize segment",
    "resize segment, serves one",
    "region information",
    "partition create",
    "partition ident",
    "partition delete",
    "get buffer",
    "return buffer",
    "clock tick",
    "clock tick, sends one away, serves one",
    "segment read, 2 words",
    "segment write, 2 words",
];

/// The scene of a row under a load. The object that the call works on is the
/// last one of its kind.
pub fn scene(row: &'static str, load: Load) -> Scene {
    let target = match row {
        "partition create" | "partition ident" | "partition delete" | "get buffer"
        | "return buffer" => Target::Partition,
        _ => Target::Region,
    };
    let last = if load.is_full() { 7 } else { 0 };
    let id = id_of(last as usize, 0);
    let mut builder = Builder::new(load);
    let makes_target = !row.ends_with("create");
    let fill = match row {
        "region delete" | "partition delete" | "get buffer" => Fill::Free,
        _ => Fill::Mixed,
    };

    let order = if row.ends_with("by halves") { 2 } else { 0 };

    // The objects before the last one, all of them mixed, and by pages.
    for index in 0..last {
        builder.region(index, Fill::Mixed, 0);
        builder.partition(index, Fill::Mixed);
    }
    // The last ones.
    let others = load.is_full();
    match target {
        Target::Region => {
            if makes_target {
                builder.region(last, fill, order);
            }
            if others {
                builder.partition(last, Fill::Mixed);
            }
        }
        Target::Partition => {
            if makes_target {
                builder.partition(last, fill);
            }
            if others {
                builder.region(last, Fill::Mixed, order);
            }
        }
    }

    // The waiters: all want all pages and have ticks left, so that none is
    // served or sent away, but for those that are to be.
    let last_can_wait = builder.record[region_at(last as usize) + NAME] != 0
        && !(target == Target::Region && fill == Fill::Free);
    let all = builder.pages(last);
    let queue = match row {
        _ if !last_can_wait => vec![],
        "clock tick, sends one away, serves one" => vec![(all, 1), (1, MANY_TICKS)],
        _ if row.ends_with("serves one") => vec![(1, MANY_TICKS)],
        "clock tick" => vec![(all, MANY_TICKS)],
        _ if load.is_full() => vec![(all, MANY_TICKS)],
        _ => vec![],
    };
    if load.is_full() {
        for waiter in 0..FULL_QUEUE - queue.len() as u32 {
            let index = (waiter / 2).min(last - 1);
            builder.waiter(index, builder.pages(index), MANY_TICKS);
        }
    }
    for (pages, ticks) in queue {
        builder.waiter(last, pages, ticks);
    }

    let (start, length, page) = load.region_shape(last);
    let address = builder.last_held(last);
    let get = |pages: u32, alignment: u32, wait: u32| Call::Get {
        id,
        size: pages * page,
        alignment,
        wait,
        task: 16,
        priority: 7,
        ticks: 3,
    };
    let (call, returned) = match row {
        "region create" => (
            Call::CreateRegion {
                name: name_of(last),
                start,
                length,
                page,
                order: 0,
            },
            0,
        ),
        "region ident" => (
            Call::IdentRegion {
                name: name_of(last),
            },
            0,
        ),
        "region delete" => (Call::DeleteRegion { id }, 0),
        "get segment" | "get segment, by halves" => (get(2, 0, 0), 0),
        // The last two pages start on it under every load.
        "get segment, aligned" => (get(2, 2 * page, 0), 0),
        "get segment, waits" => (get(builder.pages(last), 0, 1), 255),
        "return segment" | "return segment, by halves" | "return segment, serves one" => {
            (Call::Return { id, address }, 0)
        }
        "segment size" => (Call::Size { id, address }, 0),
        "resize segment" | "resize segment, serves one" => (
            Call::Resize {
                id,
                address,
                size: 2 * page,
            },
            0,
        ),
        "region information" => (Call::Information { id }, 0),
        "partition create" => {
            let (start, length, size) = load.partition_shape(last);
            let name = name_of(last);
            (
                Call::CreatePartition {
                    name,
                    start,
                    length,
                    size,
                },
                0,
            )
        }
        "partition ident" => (
            Call::IdentPartition {
                name: name_of(last),
            },
            0,
        ),
        "partition delete" => (Call::DeletePartition { id }, 0),
        "get buffer" => (Call::GetBuffer { id }, 0),
        "return buffer" => {
            let address = builder.held_buffer(last);
            (Call::ReturnBuffer { id, address }, 0)
        }
        "clock tick" | "clock tick, sends one away, serves one" => (Call::Tick, 0),
        "segment read, 2 words" => (Call::Read { id, address }, page as usize / 4),
        "segment write, 2 words" => (
            Call::Write {
                id,
                address,
                first: 0,
                words: vec![1, 2],
            },
            0,
        ),
        _ => unreachable!("no row {row}"),
    };
    assert_eq!(
        sound::check(&builder.record, &builder.memory),
        Ok(()),
        "{row}, {}",
        load.name()
    );
    Scene {
        row,
        load,
        record: builder.record,
        memory: builder.memory,
        call,
        returned,
        restores_memory: makes_target,
    }
}

#[cfg(test)]
mod tests {
    use super::*;
    use model::Model;

    /// The model agrees that each call returns what its scene says.
    #[test]
    fn scenes_do_what_they_say() {
        for load in Load::ALL {
            for row in ROWS {
                let scene = scene(row, load);
                let mut model = Model::from_record(&scene.record, &scene.memory);
                let answer = model.call(&scene.call);
                let returned = match scene.call {
                    Call::Read { .. } => answer.words.len(),
                    _ => answer.status as usize,
                };
                assert_eq!(returned, scene.returned, "{row}, {}", load.name());
                let told: Vec<u32> = answer.notices.iter().map(|n| n.status).collect();
                let expected = match row {
                    "clock tick, sends one away, serves one" => vec![6, 0],
                    _ if row.ends_with("serves one") => vec![0],
                    _ => vec![],
                };
                assert_eq!(told, expected, "{row}, {}", load.name());
                if load.is_full() {
                    let waiting = model.waiting_tasks().len();
                    let expected = match row {
                        "get segment, waits" => 16,
                        _ => 15 - told.len(),
                    };
                    assert_eq!(waiting, expected, "{row}, {}", load.name());
                }
            }
        }
    }

    #[test]
    fn maps_and_chains_have_the_sizes_of_the_titles() {
        let pages = |load: Load| Builder::new(load).pages(0);
        let buffers = |load: Load| {
            let (_, length, size) = load.partition_shape(0);
            length / size
        };
        let by_halves = |load: Load| {
            let mut builder = Builder::new(load);
            builder.region(0, Fill::Mixed, 2);
            builder.pages(0)
        };
        assert_eq!(Load::ALL.map(pages), [15, 5_461, 15, 341]);
        assert_eq!(Load::ALL.map(by_halves), [8, 4_096, 8, 256]);
        assert_eq!(Load::ALL.map(buffers), [8, 8_191, 8, 511]);
    }
}
