//! Cases of alignments: gets on one, told by what is free before them; what is
//! done with a segment that starts on one; and tasks that wait with one, told
//! by what would come of the call if it were forgotten.

use crate::cases::Pages;
use directives::words::*;
use directives::{Answer, Call, Directive};
use model::{Kind, Model, Segment};
use std::fmt;

/// The largest alignment that is allowed.
pub const MAX_ALIGNMENT: u32 = 4_096;

/// Why a get is refused for its alignment.
#[derive(Clone, Copy, Debug, PartialEq, Eq, PartialOrd, Ord)]
pub enum Refused {
    /// The region is by halves; by pages it would be allowed ..
    ByHalves,
    /// .. or not.
    ByHalvesWrong,
    /// It is no multiple of the page size, but not above the largest.
    NotMultiple,
    /// It is a multiple above the largest.
    Above,
    /// No page of the region is on it.
    NoPage,
    /// Behind the first page that is on it there are too few.
    TooFew,
}

/// What is wrong with a get beside its alignment: what it would come to with
/// alignment 0.
#[derive(Clone, Copy, Debug, PartialEq, Eq, PartialOrd, Ord)]
pub enum Wrong {
    Nothing,
    TooLarge,
    Task,
    Priority,
    Waits,
    /// There is no room for it now.
    NoRoom,
}

impl Wrong {
    fn of(status: u32) -> Option<Wrong> {
        match status {
            status::SUCCESSFUL => Some(Wrong::Nothing),
            status::INVALID_SIZE => Some(Wrong::TooLarge),
            status::INVALID_NUMBER => Some(Wrong::Task),
            status::INVALID_PRIORITY => Some(Wrong::Priority),
            status::INCORRECT_STATE => Some(Wrong::Waits),
            status::UNSATISFIED | status::WAITING => Some(Wrong::NoRoom),
            _ => None,
        }
    }
}

/// What an alignment comes to. It is wide if it is more than the page size.
#[derive(Clone, Copy, Debug, PartialEq, Eq, PartialOrd, Ord)]
pub enum Alignments {
    /// A get on a wide one is done, and of its free segment there is room left
    /// before it and behind it: one becomes three ..
    Three,
    /// .. only before it ..
    RoomBefore,
    /// .. only behind it ..
    RoomBehind,
    /// .. or none.
    NoRoomLeft,
    /// It passes a lower free segment that is long enough.
    PassesLower,
    /// It would have another place by the pages' numbers.
    ByAddress,
    /// The alignment is no power of two, but the page size is ..
    NoPower,
    /// .. or neither.
    OddPage,
    /// The alignment is the largest that is allowed.
    Largest,
    /// A get on the page size, and not on 0, is done ..
    PageSize,
    /// .. or waits, and keeps it so.
    KeepsPageSize,
    /// A get has no place, though a free segment is long enough: 13 ..
    Unsatisfied,
    /// .. or the task waits.
    Waits,
    /// A get is refused for its alignment.
    Refused(Refused, Wrong),
    /// A get is refused for its id, which differs from that of a live region of
    /// a kind in its generation, and the alignment would be refused too.
    OtherId(Kind),
    /// A get of 0 bytes by halves, on an alignment.
    SizeZero,
    /// Of a held segment on a wide one, with room before it: its return joins
    /// that and room behind it to one ..
    JoinsThree,
    /// .. a resize is done ..
    Resized(Pages),
    /// .. or refused, and would not be if it grew into the room before it.
    RoomOfNoUse,
    /// A return, a resize or a tick serves a task on its alignment, and would
    /// have given it another place without.
    Served(Directive),
    /// It serves nobody past a first task that it would serve without its
    /// alignment, though there is room for one behind that.
    Blocked(Directive),
}

/// The directives that serve.
const SERVING: [Directive; 3] = [Directive::Return, Directive::Resize, Directive::Tick];

impl Alignments {
    pub fn all() -> Vec<Alignments> {
        let mut all = vec![
            Alignments::Three,
            Alignments::RoomBefore,
            Alignments::RoomBehind,
            Alignments::NoRoomLeft,
            Alignments::PassesLower,
            Alignments::ByAddress,
            Alignments::NoPower,
            Alignments::OddPage,
            Alignments::Largest,
            Alignments::PageSize,
            Alignments::KeepsPageSize,
            Alignments::Unsatisfied,
            Alignments::Waits,
            Alignments::OtherId(Kind::Pages),
            Alignments::OtherId(Kind::Halves),
            Alignments::SizeZero,
            Alignments::JoinsThree,
            Alignments::RoomOfNoUse,
        ];
        all.extend(Alignments::refused());
        all.extend(Pages::ALL.map(Alignments::Resized));
        all.extend(SERVING.map(Alignments::Served));
        all.extend(SERVING.map(Alignments::Blocked));
        all
    }

    /// Every reason, beside everything else that can be wrong.
    fn refused() -> Vec<Alignments> {
        let mut all = Vec::new();
        for refused in [
            Refused::ByHalves,
            Refused::ByHalvesWrong,
            Refused::NotMultiple,
            Refused::Above,
            Refused::NoPage,
            Refused::TooFew,
        ] {
            let mut wrong = vec![
                Wrong::Nothing,
                Wrong::Task,
                Wrong::Priority,
                Wrong::Waits,
                Wrong::NoRoom,
            ];
            // A place on it is asked for where the size is not too large without.
            if !matches!(refused, Refused::NoPage | Refused::TooFew) {
                wrong.push(Wrong::TooLarge);
            }
            all.extend(
                wrong
                    .iter()
                    .map(|wrong| Alignments::Refused(refused, *wrong)),
            );
        }
        all
    }
}

impl fmt::Display for Refused {
    fn fmt(&self, out: &mut fmt::Formatter) -> fmt::Result {
        out.write_str(match self {
            Refused::ByHalves => "11 for an allowed one",
            Refused::ByHalvesWrong => "11 for a wrong one",
            Refused::NotMultiple => "8 for no multiple",
            Refused::Above => "8 for one above 4,096",
            Refused::NoPage => "8, no page on it",
            Refused::TooFew => "8, too few pages behind",
        })
    }
}

impl fmt::Display for Wrong {
    fn fmt(&self, out: &mut fmt::Formatter) -> fmt::Result {
        out.write_str(match self {
            Wrong::Nothing => "nothing else",
            Wrong::TooLarge => "too large",
            Wrong::Task => "a wrong task",
            Wrong::Priority => "a wrong priority",
            Wrong::Waits => "a task that waits",
            Wrong::NoRoom => "no room now",
        })
    }
}

impl fmt::Display for Alignments {
    fn fmt(&self, out: &mut fmt::Formatter) -> fmt::Result {
        let title = match self {
            Alignments::Three => "get: room left before and behind",
            Alignments::RoomBefore => "get: room left only before",
            Alignments::RoomBehind => "get: room left only behind",
            Alignments::NoRoomLeft => "get: no room left",
            Alignments::PassesLower => "get: passes a lower one, long enough",
            Alignments::ByAddress => "get: elsewhere by pages' numbers",
            Alignments::NoPower => "get: no power of two",
            Alignments::OddPage => "get: the page no power of two either",
            Alignments::Largest => "get: 4,096",
            Alignments::PageSize => "get: the page size",
            Alignments::KeepsPageSize => "get: waits on the page size",
            Alignments::Unsatisfied => "get: 13 beside a run",
            Alignments::Waits => "get: waits beside a run",
            Alignments::Refused(refused, wrong) => return write!(out, "get: {refused}, {wrong}"),
            Alignments::OtherId(Kind::Pages) => "get: 4 and not 8",
            Alignments::OtherId(Kind::Halves) => "get: 4 and not 11",
            Alignments::SizeZero => "get: 8 and not 11, size 0",
            Alignments::JoinsThree => "return: joins before and behind",
            Alignments::Resized(pages) => return write!(out, "resize: {}", pages.title()),
            Alignments::RoomOfNoUse => "resize: 13, room only before",
            Alignments::Served(by) => return write!(out, "{}: serves on it", by.name()),
            Alignments::Blocked(by) => {
                return write!(out, "{}: the first not on it, one behind fits", by.name())
            }
        };
        out.write_str(title)
    }
}

/// What a call has to do with alignments, by the state before it.
pub enum Before {
    Nothing,
    Get(Asked),
    /// A get whose id is of another generation than a live region of a kind,
    /// which would refuse its alignment.
    NoRegion {
        kind: Kind,
    },
    /// A return, a resize or a tick.
    Serves {
        held: Option<Held>,
        queue: Option<Queue>,
    },
}

impl Before {
    pub fn new(model: &Model, call: &Call) -> Before {
        match call {
            Call::Get { alignment: 0, .. } => Before::Nothing,
            Call::Get { .. } => match Asked::new(model, call) {
                Some(asked) => Before::Get(asked),
                None => no_region(model, call),
            },
            Call::Return { id, address } | Call::Resize { id, address, .. } => Before::Serves {
                held: Held::new(model, *id, *address),
                queue: Queue::new(model, call),
            },
            Call::Tick => Before::Serves {
                held: None,
                queue: Queue::new(model, call),
            },
            _ => Before::Nothing,
        }
    }

    /// The cases that the call can be, and whether it is.
    pub fn cases(&self, call: &Call, answer: &Answer, after: &Model) -> Vec<(bool, Alignments)> {
        match self {
            Before::Nothing => vec![],
            Before::Get(asked) => asked.cases(answer),
            Before::NoRegion { kind } => {
                let is_refused = answer.status == status::INVALID_ID;
                vec![(is_refused, Alignments::OtherId(*kind))]
            }
            Before::Serves { held, queue } => {
                let mut cases = Vec::new();
                cases.extend(held.iter().flat_map(|held| held.cases(call, answer)));
                let of_queue = |queue: &Queue| queue.cases(call.directive(), answer, after);
                cases.extend(queue.iter().flat_map(of_queue));
                cases
            }
        }
    }
}

/// Whether an alignment other than 0 is one that is allowed by pages.
fn is_allowed(alignment: u32, page: u32) -> bool {
    alignment <= MAX_ALIGNMENT && alignment.is_multiple_of(page)
}

/// A get that names no live region.
fn no_region(model: &Model, get: &Call) -> Before {
    let Call::Get { id, alignment, .. } = *get else {
        return Before::Nothing;
    };
    let live = model.region_ids().into_iter();
    let mut others = live.filter(|live| slot_of(*live) == slot_of(id));
    let other = others
        .next()
        .and_then(|id| model.kind(id).zip(model.pages(id)));
    match other {
        Some((kind, (page, _))) if kind == Kind::Halves || !is_allowed(alignment, page) => {
            Before::NoRegion { kind }
        }
        _ => Before::Nothing,
    }
}

/// The lowest address in some free segments that is a multiple of an alignment,
/// counted from an origin, with room for so many bytes.
fn lowest(free: &[Segment], origin: u32, alignment: u32, bytes: u64) -> Option<u32> {
    let place = |segment: &Segment| {
        let address = origin + (segment.address - origin).next_multiple_of(alignment);
        let end = u64::from(segment.address + segment.length);
        (u64::from(address) + bytes <= end).then_some(address)
    };
    free.iter().find_map(place)
}

/// A get on an alignment other than 0, in a live region.
pub struct Asked {
    kind: Kind,
    page: u32,
    alignment: u32,
    /// The bytes of its whole pages.
    bytes: u64,
    /// All of the region, as if it were free.
    all: Segment,
    free: Vec<Segment>,
    wrong: Option<Wrong>,
}

impl Asked {
    fn new(model: &Model, get: &Call) -> Option<Asked> {
        let Call::Get {
            id,
            size,
            alignment,
            ..
        } = *get
        else {
            return None;
        };
        let (page, pages) = model.pages(id)?;
        let all = Segment {
            address: model.segments(id).first()?.address,
            length: page * pages,
            held: false,
        };
        Some(Asked {
            kind: model.kind(id)?,
            page,
            alignment,
            bytes: u64::from(size.div_ceil(page)) * u64::from(page),
            all,
            free: model.segments_held(id, false),
            wrong: Wrong::of(without_alignment(model, get)),
        })
    }

    fn is_wide(&self) -> bool {
        self.alignment > self.page
    }

    fn cases(&self, answer: &Answer) -> Vec<(bool, Alignments)> {
        let is_run = |free: &Segment| u64::from(free.length) >= self.bytes;
        let is_run = self.free.iter().any(is_run);
        let is_page_size = self.alignment == self.page;
        match answer.status {
            status::SUCCESSFUL => self.of_done(answer.value),
            status::UNSATISFIED => vec![(is_run, Alignments::Unsatisfied)],
            status::WAITING => vec![
                (is_run, Alignments::Waits),
                (is_page_size, Alignments::KeepsPageSize),
            ],
            status::INVALID_SIZE if self.bytes == 0 => {
                vec![(self.kind == Kind::Halves, Alignments::SizeZero)]
            }
            status::INVALID_SIZE | status::NOT_DEFINED => {
                let refused = self.refused().zip(self.wrong);
                let case = refused.map(|(why, wrong)| Alignments::Refused(why, wrong));
                case.map(|case| (true, case)).into_iter().collect()
            }
            _ => vec![],
        }
    }

    fn of_done(&self, address: u32) -> Vec<(bool, Alignments)> {
        let is_in = |free: &&Segment| (free.address..free.address + free.length).contains(&address);
        let Some(taken) = self.free.iter().find(is_in).filter(|_| self.is_wide()) else {
            return vec![(self.alignment == self.page, Alignments::PageSize)];
        };
        let is_before = taken.address < address;
        let end = u64::from(taken.address + taken.length);
        let is_behind = u64::from(address) + self.bytes < end;
        let is_passed =
            |free: &Segment| free.address < taken.address && u64::from(free.length) >= self.bytes;
        let by_number = lowest(&self.free, self.all.address, self.alignment, self.bytes);
        let is_power = [self.page, self.alignment].map(u32::is_power_of_two);
        vec![
            (is_before && is_behind, Alignments::Three),
            (is_before && !is_behind, Alignments::RoomBefore),
            (!is_before && is_behind, Alignments::RoomBehind),
            (!is_before && !is_behind, Alignments::NoRoomLeft),
            (self.free.iter().any(is_passed), Alignments::PassesLower),
            (by_number != Some(address), Alignments::ByAddress),
            (is_power == [true, false], Alignments::NoPower),
            (is_power == [false, false], Alignments::OddPage),
            (self.alignment == MAX_ALIGNMENT, Alignments::Largest),
        ]
    }

    /// Why it is refused for its alignment, if only one reason can be.
    fn refused(&self) -> Option<Refused> {
        let all = [self.all];
        let has_place = |bytes: u64| lowest(&all, 0, self.alignment, bytes).is_some();
        let is_multiple = self.alignment.is_multiple_of(self.page);
        let is_above = self.alignment > MAX_ALIGNMENT;
        match (self.kind, is_multiple, is_above) {
            (Kind::Halves, true, false) => Some(Refused::ByHalves),
            (Kind::Halves, ..) => Some(Refused::ByHalvesWrong),
            (Kind::Pages, false, false) => Some(Refused::NotMultiple),
            (Kind::Pages, true, true) => Some(Refused::Above),
            (Kind::Pages, false, true) => None,
            _ if self.bytes > u64::from(self.all.length) => None,
            _ if !has_place(u64::from(self.page)) => Some(Refused::NoPage),
            _ if !has_place(self.bytes) => Some(Refused::TooFew),
            _ => None,
        }
    }
}

/// The status of a get if its alignment were 0.
fn without_alignment(model: &Model, get: &Call) -> u32 {
    let mut get = get.clone();
    if let Call::Get { alignment, .. } = &mut get {
        *alignment = 0;
    }
    model.clone().call(&get).status
}

/// A held segment by pages that starts on a wide alignment, with room before
/// it.
pub struct Held {
    page: u32,
    length: u32,
    before: u32,
    behind: u32,
}

impl Held {
    fn new(model: &Model, id: u32, address: u32) -> Option<Held> {
        let (page, _) = model.pages(id)?;
        model.kind(id).filter(|kind| *kind == Kind::Pages)?;
        let segments = model.segments(id);
        let place = segments
            .iter()
            .position(|s| s.address == address && s.held)?;
        let free = |segment: Option<&Segment>| match segment {
            Some(segment) if !segment.held => segment.length,
            _ => 0,
        };
        let before = free(place.checked_sub(1).map(|before| &segments[before]));
        let is_wide = address.is_multiple_of(2 * page);
        (is_wide && before > 0).then(|| Held {
            page,
            length: segments[place].length,
            before,
            behind: free(segments.get(place + 1)),
        })
    }

    fn cases(&self, call: &Call, answer: &Answer) -> Vec<(bool, Alignments)> {
        let is_done = answer.status == status::SUCCESSFUL;
        let &Call::Resize { size, .. } = call else {
            return vec![(is_done && self.behind > 0, Alignments::JoinsThree)];
        };
        let is_refused = answer.status == status::UNSATISFIED;
        let pages = size.div_ceil(self.page);
        let room = self.before + self.length + self.behind;
        vec![
            (
                is_done,
                Alignments::Resized(Pages::of(pages, self.length / self.page)),
            ),
            (is_refused && size <= room, Alignments::RoomOfNoUse),
        ]
    }
}

/// Tasks that wait, some of them with an alignment.
pub struct Queue {
    waiters: Vec<[u32; WAITER_WORDS]>,
    /// What the call would answer if no task had one.
    forgotten: Answer,
}

impl Queue {
    fn new(model: &Model, call: &Call) -> Option<Queue> {
        let waiters = model.waiters();
        waiters.iter().find(|waiter| waiter[ALIGNMENT] != 0)?;
        let mut record = model.record();
        for place in 0..waiters.len() {
            record[waiter_at(place) + ALIGNMENT] = 0;
        }
        let forgotten = Model::from_record(&record, model.memory()).call(call);
        Some(Queue { waiters, forgotten })
    }

    /// Where a task would be served if no task had an alignment.
    fn forgotten(&self, task: u32) -> Option<u32> {
        let told = self.forgotten.notices.iter();
        let mut served = told.filter(|notice| notice.status == status::SUCCESSFUL);
        let notice = served.find(|notice| notice.task == task);
        notice.map(|notice| notice.address)
    }

    fn cases(&self, by: Directive, answer: &Answer, after: &Model) -> Vec<(bool, Alignments)> {
        let is_elsewhere = |waiter: &[u32; WAITER_WORDS]| {
            let mut told = answer.notices.iter();
            let own = told.find(|notice| notice.task == waiter[TASK]);
            let own = own.filter(|notice| notice.status == status::SUCCESSFUL);
            let places = own.zip(self.forgotten(waiter[TASK]));
            waiter[ALIGNMENT] != 0 && places.is_some_and(|(own, other)| own.address != other)
        };
        let queue = after.waiters();
        let mut queues = queue.chunk_by(|one, next| one[REGION] == next[REGION]);
        let is_blocked = |queue: &[[u32; WAITER_WORDS]]| {
            self.forgotten(queue[0][TASK]).is_some()
                && queue[1..].iter().any(|waiter| has_room(after, waiter))
        };
        vec![
            (
                self.waiters.iter().any(is_elsewhere),
                Alignments::Served(by),
            ),
            (queues.any(is_blocked), Alignments::Blocked(by)),
        ]
    }
}

/// Whether there is room for a waiter now.
fn has_room(model: &Model, waiter: &[u32; WAITER_WORDS]) -> bool {
    let get = [
        waiter[REGION],
        waiter[WANTED],
        waiter[ALIGNMENT],
        0,
        0,
        0,
        0,
    ];
    let answer = model.clone().call(&Directive::Get.call(&get));
    answer.status == status::SUCCESSFUL
}

#[cfg(test)]
mod tests {
    use super::*;
    use crate::cases::tests::all_cases;
    use crate::cases::Case;
    use Directive::*;

    /// The cases of alignments of some calls in turn.
    fn alignments(model: &mut Model, calls: &[(Directive, &[u32])]) -> Vec<Vec<Alignments>> {
        let of_alignments = |case: Case| match case {
            Case::Aligned(case) => Some(case),
            _ => None,
        };
        let all = all_cases(model, calls).into_iter();
        all.map(|cases| cases.into_iter().filter_map(of_alignments).collect())
            .collect()
    }

    /// Fifteen pages from 64 on.
    const A: (Directive, &[u32]) = (CreateRegion, &[1, 4, 1_020, 64, 0]);

    #[test]
    fn cases_of_places() {
        let calls: [(_, &[u32]); 12] = [
            A,
            (Get, &[1, 64, 256, 0, 0, 0, 0]),
            (Get, &[1, 192, 64, 0, 0, 0, 0]),
            (Get, &[1, 64, 320, 0, 0, 0, 0]),
            (Return, &[1, 64]),
            (Get, &[1, 64, 512, 0, 0, 0, 0]),
            (Get, &[1, 64, 192, 0, 0, 0, 0]),
            (Get, &[1, 256, 256, 0, 0, 0, 0]),
            (Get, &[1, 64, 256, 0, 0, 0, 0]),
            (Get, &[1, 64, 256, 1, 3, 1, 0]),
            (Get, &[1, 768, 64, 1, 4, 1, 0]),
            (Get, &[1, 64, 0, 0, 0, 0, 0]),
        ];
        let mut expected = vec![vec![]; calls.len()];
        expected[1] = vec![Alignments::Three, Alignments::ByAddress];
        expected[2] = vec![Alignments::PageSize];
        expected[3] = vec![
            Alignments::RoomBehind,
            Alignments::ByAddress,
            Alignments::NoPower,
        ];
        expected[5] = vec![
            Alignments::Three,
            Alignments::PassesLower,
            Alignments::ByAddress,
        ];
        expected[6] = vec![
            Alignments::RoomBefore,
            Alignments::ByAddress,
            Alignments::NoPower,
        ];
        expected[7] = vec![Alignments::RoomBefore, Alignments::ByAddress];
        expected[8] = vec![Alignments::Unsatisfied];
        expected[9] = vec![Alignments::Waits];
        expected[10] = vec![Alignments::KeepsPageSize];
        assert_eq!(alignments(&mut Model::fresh(), &calls), expected);
    }

    #[test]
    fn cases_of_the_largest_one() {
        let calls: [(_, &[u32]); 3] = [
            (CreateRegion, &[1, 4, 65_532, 64, 0]),
            (Get, &[1, 64, 4_096, 0, 0, 0, 0]),
            (Get, &[1, 64, 4_032, 0, 0, 0, 0]),
        ];
        let expected = [
            vec![],
            vec![
                Alignments::Three,
                Alignments::ByAddress,
                Alignments::Largest,
            ],
            vec![
                Alignments::RoomBefore,
                Alignments::ByAddress,
                Alignments::NoPower,
            ],
        ];
        assert_eq!(alignments(&mut Model::fresh(), &calls), expected);
    }

    /// Seventeen pages of 24 bytes from 72 on.
    #[test]
    fn cases_of_a_page_that_is_no_power_of_two() {
        let calls: [(_, &[u32]); 4] = [
            (CreateRegion, &[1, 4, 500, 24, 0]),
            (Get, &[1, 24, 48, 0, 0, 0, 0]),
            (Get, &[1, 24, 72, 0, 0, 0, 0]),
            (Get, &[1, 24, 4_096, 0, 0, 0, 0]),
        ];
        let expected = [
            vec![],
            vec![
                Alignments::Three,
                Alignments::ByAddress,
                Alignments::OddPage,
            ],
            vec![Alignments::NoRoomLeft, Alignments::OddPage],
            vec![Alignments::Refused(Refused::NotMultiple, Wrong::Nothing)],
        ];
        assert_eq!(alignments(&mut Model::fresh(), &calls), expected);
    }

    #[test]
    fn cases_of_refusals() {
        let mut model = Model::fresh();
        let b: (_, &[u32]) = (CreateRegion, &[2, 2_048, 1_020, 64, 3]);
        let calls = [A, b, (DeleteRegion, &[2]), b, (DeleteRegion, &[1]), A];
        alignments(&mut model, &calls);
        let all: [(_, &[u32]); 2] = [
            (Get, &[17, 960, 0, 0, 0, 0, 0]),
            (Get, &[17, 64, 0, 1, 3, 1, 0]),
        ];
        for (get, expected) in [
            (
                [18, 64, 64, 0, 0, 0, 0],
                (Refused::ByHalves, Wrong::Nothing),
            ),
            (
                [18, 64, 7, 0, 0, 0, 0],
                (Refused::ByHalvesWrong, Wrong::Nothing),
            ),
            (
                [18, 513, 8_192, 0, 0, 0, 0],
                (Refused::ByHalvesWrong, Wrong::TooLarge),
            ),
            (
                [17, 64, 65, 0, 0, 0, 0],
                (Refused::NotMultiple, Wrong::Nothing),
            ),
            (
                [17, 64, 4_160, 0, 0, 0, 0],
                (Refused::Above, Wrong::Nothing),
            ),
            (
                [17, 961, 4_160, 0, 0, 0, 0],
                (Refused::Above, Wrong::TooLarge),
            ),
            (
                [17, 64, 1_024, 0, 0, 0, 0],
                (Refused::NoPage, Wrong::Nothing),
            ),
            (
                [17, 769, 256, 0, 0, 0, 0],
                (Refused::TooFew, Wrong::Nothing),
            ),
        ] {
            let found = alignments(&mut model, &[(Get, &get)]);
            assert_eq!(found, [[Alignments::Refused(expected.0, expected.1)]]);
        }
        alignments(&mut model, &all);
        for (get, wrong) in [
            ([17, 769, 256, 0, 0, 0, 0], Wrong::NoRoom),
            ([17, 769, 256, 1, 17, 1, 0], Wrong::Task),
            ([17, 769, 256, 1, 4, 0, 0], Wrong::Priority),
            ([17, 769, 256, 1, 3, 1, 0], Wrong::Waits),
            ([17, 769, 256, 1, 4, 1, 0], Wrong::NoRoom),
        ] {
            let found = alignments(&mut model, &[(Get, &get)]);
            assert_eq!(found, [[Alignments::Refused(Refused::TooFew, wrong)]]);
        }
        let calls: [(_, &[u32]); 9] = [
            (Get, &[1, 64, 7, 0, 0, 0, 0]),
            (Get, &[1, 64, 64, 0, 0, 0, 0]),
            (Get, &[2, 64, 64, 0, 0, 0, 0]),
            (Get, &[3, 64, 64, 0, 0, 0, 0]),
            (Get, &[18, 0, 64, 0, 0, 0, 0]),
            (Get, &[17, 0, 7, 0, 0, 0, 0]),
            (Get, &[17, 64, 5_000, 0, 0, 0, 0]),
            (Get, &[17, 961, 64, 0, 0, 0, 0]),
            (Get, &[18, 64, 0, 0, 0, 0, 0]),
        ];
        let mut expected = vec![vec![]; calls.len()];
        expected[0] = vec![Alignments::OtherId(Kind::Pages)];
        expected[2] = vec![Alignments::OtherId(Kind::Halves)];
        expected[4] = vec![Alignments::SizeZero];
        assert_eq!(alignments(&mut model, &calls), expected);
    }

    #[test]
    fn cases_of_held_segments() {
        let mut model = Model::fresh();
        alignments(&mut model, &[A, (Get, &[1, 64, 256, 0, 0, 0, 0])]);
        let calls: [(_, &[u32]); 7] = [
            (Resize, &[1, 256, 129]),
            (Resize, &[1, 256, 130]),
            (Resize, &[1, 256, 64]),
            (Resize, &[1, 256, 960]),
            (Resize, &[1, 256, 961]),
            (Return, &[1, 256]),
            (Return, &[1, 256]),
        ];
        let mut expected: Vec<Vec<Alignments>> = [Pages::More, Pages::Same, Pages::Fewer]
            .map(|pages| vec![Alignments::Resized(pages)])
            .to_vec();
        expected.extend([
            vec![Alignments::RoomOfNoUse],
            vec![],
            vec![Alignments::JoinsThree],
            vec![],
        ]);
        assert_eq!(alignments(&mut model, &calls), expected);
    }

    #[test]
    fn cases_of_serving() {
        let mut model = Model::fresh();
        let calls: [(_, &[u32]); 13] = [
            A,
            (Get, &[1, 192, 0, 0, 0, 0, 0]),
            (Get, &[1, 64, 0, 0, 0, 0, 0]),
            (Get, &[1, 704, 0, 0, 0, 0, 0]),
            (Get, &[1, 64, 256, 1, 3, 1, 0]),
            (Get, &[1, 64, 0, 1, 4, 1, 0]),
            (Return, &[1, 64]),
            (Return, &[1, 256]),
            (Get, &[1, 128, 0, 0, 0, 0, 0]),
            (Get, &[1, 64, 256, 1, 3, 1, 0]),
            (Get, &[1, 64, 0, 1, 4, 1, 0]),
            (Resize, &[1, 320, 576]),
            (Resize, &[1, 320, 384]),
        ];
        let mut expected = vec![vec![]; calls.len()];
        expected[6] = vec![Alignments::Blocked(Return)];
        expected[7] = vec![Alignments::Served(Return)];
        expected[11] = vec![Alignments::Blocked(Resize)];
        expected[12] = vec![Alignments::Served(Resize)];
        assert_eq!(alignments(&mut model, &calls), expected);
    }

    #[test]
    fn cases_of_ticks_that_serve() {
        let mut model = Model::fresh();
        let calls: [(_, &[u32]); 13] = [
            A,
            (Get, &[1, 192, 0, 0, 0, 0, 0]),
            (Get, &[1, 192, 0, 0, 0, 0, 0]),
            (Get, &[1, 576, 0, 0, 0, 0, 0]),
            (Get, &[1, 960, 0, 1, 1, 1, 1]),
            (Get, &[1, 64, 512, 1, 2, 1, 2]),
            (Get, &[1, 64, 128, 1, 3, 1, 0]),
            (Return, &[1, 64]),
            (Tick, &[]),
            (Get, &[1, 960, 0, 1, 1, 1, 1]),
            (Tick, &[]),
            (Get, &[1, 64, 128, 1, 4, 1, 1]),
            (Tick, &[]),
        ];
        let mut expected = vec![vec![]; calls.len()];
        // Task 3 has room behind task 2, and gets it when that leaves.
        expected[8] = vec![Alignments::Blocked(Tick)];
        expected[10] = vec![Alignments::Served(Tick)];
        expected[11] = vec![Alignments::Waits];
        assert_eq!(alignments(&mut model, &calls), expected);
    }
}
