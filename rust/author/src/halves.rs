//! Cases of regions by halves, told by the blocks before a call.

use crate::cases::Pages;
use directives::words::status;
use directives::{Answer, Call, Directive};
use model::{Area, Kind, Model, Segment};
use std::fmt;

/// What a call on a region by halves comes to.
#[derive(Clone, Copy, Debug, PartialEq, Eq, PartialOrd, Ord)]
pub enum Halves {
    /// A new region has as many pages as it would have by pages ..
    AsManyPages,
    /// .. or fewer ..
    FewerPages,
    /// .. so that they start lower ..
    StartsLower,
    /// .. and with one page more there would be twice as many.
    OnePageShort,
    /// A get takes a block, and a larger one that would do lies lower ..
    NotLowest,
    /// .. one of the same size lies higher ..
    LowestOfEquals,
    /// .. the block has the asked size ..
    TakenWhole,
    /// .. or is halved at least twice.
    HalvedTwice,
    /// A get has more pages than it needs: their number is rounded up.
    RoundedUp,
    /// A get has no room, though so many pages adjoin that are free.
    RunButNoBlock,
    /// A get is too large, and would not be by pages.
    TooLarge,
    /// A return joins nothing ..
    JoinsNothing,
    /// .. or at least twice.
    JoinsTwice,
    /// A free neighbour of the size of what a return frees stays apart.
    NeighbourApart,
    /// A return serves a task that needs more than was returned.
    JoinServes,
    /// A resize keeps the pages, though fewer whole ones would do.
    KeepsMore,
    /// A resize to fewer or more pages is refused ..
    Refused(Pages),
    /// .. and by pages there would be room to grow.
    RefusedBesideRoom,
    /// A resize that keeps the pages serves.
    ResizeServes,
    /// A tick serves.
    TickServes,
}

impl Halves {
    /// Those that scripts reach.
    pub const OF_SCRIPTS: [Halves; 20] = [
        Halves::AsManyPages,
        Halves::FewerPages,
        Halves::StartsLower,
        Halves::OnePageShort,
        Halves::NotLowest,
        Halves::LowestOfEquals,
        Halves::TakenWhole,
        Halves::HalvedTwice,
        Halves::RoundedUp,
        Halves::RunButNoBlock,
        Halves::TooLarge,
        Halves::JoinsNothing,
        Halves::JoinsTwice,
        Halves::NeighbourApart,
        Halves::JoinServes,
        Halves::KeepsMore,
        Halves::Refused(Pages::Fewer),
        Halves::Refused(Pages::More),
        Halves::RefusedBesideRoom,
        Halves::TickServes,
    ];
}

impl fmt::Display for Halves {
    fn fmt(&self, out: &mut fmt::Formatter) -> fmt::Result {
        let title = match self {
            Halves::AsManyPages => "create: as many pages as by pages",
            Halves::FewerPages => "create: fewer pages than by pages",
            Halves::StartsLower => "create: pages start lower than by pages",
            Halves::OnePageShort => "create: one page less than for the double",
            Halves::NotLowest => "get: the smallest block, not the lowest",
            Halves::LowestOfEquals => "get: the lowest of equal blocks",
            Halves::TakenWhole => "get: a block of the size itself",
            Halves::HalvedTwice => "get: a block halved twice or more",
            Halves::RoundedUp => "get: pages rounded up",
            Halves::RunButNoBlock => "get: no block, but so many pages adjoin",
            Halves::TooLarge => "get: too large, and not by pages",
            Halves::JoinsNothing => "return: joins nothing",
            Halves::JoinsTwice => "return: joins twice or more",
            Halves::NeighbourApart => "return: a free neighbour stays apart",
            Halves::JoinServes => "return: a joined block serves",
            Halves::KeepsMore => "resize: keeps more than whole pages",
            Halves::Refused(pages) => return write!(out, "resize: {}, refused", pages.title()),
            Halves::RefusedBesideRoom => "resize: refused beside room to grow",
            Halves::ResizeServes => "resize: as many pages, serves",
            Halves::TickServes => "tick: serves",
        };
        out.write_str(title)
    }
}

/// The pages that a request of so many comes to by halves.
pub fn rounded(pages: u32) -> u32 {
    pages.next_power_of_two()
}

/// The page count and the first page's address that an area has by pages.
fn by_pages(area: Area, page: u32) -> (u32, u32) {
    let mut model = Model::fresh();
    let create = [1, area.start, area.length, page, 0];
    let id = model.call(&Directive::CreateRegion.call(&create)).value;
    let pages = model.pages(id).map_or(0, |(_, pages)| pages);
    let start = model.segments(id).first().map_or(0, |free| free.address);
    (pages, start)
}

#[derive(Clone, Copy)]
struct Block {
    /// Its first page.
    first: u32,
    pages: u32,
    held: bool,
}

/// All blocks of a region, by rising address.
pub struct Blocks {
    area: Area,
    page: u32,
    /// The address of page 0.
    start: u32,
    blocks: Vec<Block>,
}

impl Blocks {
    /// Those of a live region, if it is by halves.
    pub fn new(model: &Model, id: u32) -> Option<Blocks> {
        model.kind(id).filter(|kind| *kind == Kind::Halves)?;
        let (page, _) = model.pages(id)?;
        let segments = model.segments(id);
        let start = segments.first()?.address;
        let blocks = segments.iter().map(|segment| Block {
            first: (segment.address - start) / page,
            pages: segment.length / page,
            held: segment.held,
        });
        Some(Blocks {
            area: model.area(id)?,
            page,
            start,
            blocks: blocks.collect(),
        })
    }

    /// The cases that a call on the region can be, and whether it is.
    pub fn cases(&self, call: &Call, answer: &Answer, after: &Model) -> Vec<(bool, Halves)> {
        match *call {
            Call::Get { size, .. } => self.of_get(size, answer),
            Call::Return { id, address } => self.of_return(address, answer, &after.segments(id)),
            Call::Resize { address, size, .. } => self.of_resize(address, size, answer),
            _ => vec![],
        }
    }

    fn address_of(&self, page: u32) -> u32 {
        self.start + page * self.page
    }

    /// The block at an address.
    fn at(&self, address: u32) -> Option<&Block> {
        let mut blocks = self.blocks.iter();
        blocks.find(|block| self.address_of(block.first) == address)
    }

    fn free(&self) -> impl Iterator<Item = &Block> {
        self.blocks.iter().filter(|block| !block.held)
    }

    fn is_free(&self, first: u32, pages: u32) -> bool {
        let mut free = self.free();
        free.any(|block| (block.first, block.pages) == (first, pages))
    }

    /// How many pages are free from one on, up to the next held one.
    fn free_from(&self, first: u32) -> u32 {
        let behind = self.blocks.iter().filter(|block| block.first >= first);
        let free = behind.take_while(|block| !block.held);
        free.map(|block| block.pages).sum()
    }

    /// The cases that making the region can be, if these are its blocks then.
    pub fn of_create(&self) -> Vec<(bool, Halves)> {
        let pages: u32 = self.blocks.iter().map(|block| block.pages).sum();
        let (most, start) = by_pages(self.area, self.page);
        vec![
            (pages == most, Halves::AsManyPages),
            (pages < most, Halves::FewerPages),
            (self.start < start, Halves::StartsLower),
            (2 * pages == most + 1, Halves::OnePageShort),
        ]
    }

    fn of_get(&self, size: u32, answer: &Answer) -> Vec<(bool, Halves)> {
        let whole = size.div_ceil(self.page);
        let asked = rounded(whole);
        let fits = |block: &Block| block.pages >= asked;
        match (answer.status, self.at(answer.value)) {
            (status::SUCCESSFUL, Some(taken)) => {
                let is_lower = |block: &Block| block.first < taken.first && fits(block);
                let is_equal =
                    |block: &Block| block.first > taken.first && block.pages == taken.pages;
                vec![
                    (self.free().any(is_lower), Halves::NotLowest),
                    (self.free().any(is_equal), Halves::LowestOfEquals),
                    (taken.pages == asked, Halves::TakenWhole),
                    (taken.pages >= 4 * asked, Halves::HalvedTwice),
                    (whole < asked, Halves::RoundedUp),
                ]
            }
            (status::UNSATISFIED | status::WAITING, _) => {
                let is_run = |block: &Block| self.free_from(block.first) >= asked;
                vec![(self.free().any(is_run), Halves::RunButNoBlock)]
            }
            (status::INVALID_SIZE, _) if size > 0 => {
                let (pages, _) = by_pages(self.area, self.page);
                vec![(whole <= pages, Halves::TooLarge)]
            }
            _ => vec![],
        }
    }

    fn of_return(&self, address: u32, answer: &Answer, after: &[Segment]) -> Vec<(bool, Halves)> {
        let block = self.at(address);
        let Some(returned) = block.filter(|_| answer.status == status::SUCCESSFUL) else {
            return vec![];
        };
        let (mut first, mut pages) = (returned.first, returned.pages);
        // The other half of a block begins where one bit of its first page differs.
        while self.is_free(first ^ pages, pages) {
            first &= !pages;
            pages *= 2;
        }
        let is_before = first >= pages && self.is_free(first - pages, pages);
        let is_behind = self.is_free(first + pages, pages);
        let joined = self.address_of(first)..self.address_of(first + pages);
        let is_granted = |address: u32| answer.notices.iter().any(|n| n.address == address);
        let needs_join = |segment: &Segment| {
            segment.length > returned.pages * self.page && joined.contains(&segment.address)
        };
        let mut granted = after.iter().filter(|segment| is_granted(segment.address));
        vec![
            (pages == returned.pages, Halves::JoinsNothing),
            (pages >= 4 * returned.pages, Halves::JoinsTwice),
            (is_before || is_behind, Halves::NeighbourApart),
            (granted.any(needs_join), Halves::JoinServes),
        ]
    }

    fn of_resize(&self, address: u32, size: u32, answer: &Answer) -> Vec<(bool, Halves)> {
        let block = self.at(address).filter(|block| block.held && size > 0);
        let Some(block) = block else {
            return vec![];
        };
        let whole = size.div_ceil(self.page);
        let change = Pages::of(rounded(whole), block.pages);
        let is_done = answer.status == status::SUCCESSFUL;
        let is_refused = answer.status == status::UNSATISFIED;
        let room = block.pages + self.free_from(block.first + block.pages);
        vec![
            (is_done && whole < block.pages, Halves::KeepsMore),
            (is_refused, Halves::Refused(change)),
            (
                is_refused && change == Pages::More && whole <= room,
                Halves::RefusedBesideRoom,
            ),
            (is_done && !answer.notices.is_empty(), Halves::ResizeServes),
        ]
    }
}

#[cfg(test)]
mod tests {
    use super::*;
    use crate::cases::tests::all_cases;
    use crate::cases::Case;
    use Directive::*;

    /// The cases of regions by halves of some calls in turn.
    fn halves(model: &mut Model, calls: &[(Directive, &[u32])]) -> Vec<Vec<Halves>> {
        let of_halves = |case: Case| match case {
            Case::ByHalves(case) => Some(case),
            _ => None,
        };
        let all = all_cases(model, calls).into_iter();
        all.map(|cases| cases.into_iter().filter_map(of_halves).collect())
            .collect()
    }

    #[test]
    fn cases_of_page_counts_by_halves() {
        let calls: [(_, &[u32]); 4] = [
            (CreateRegion, &[1, 4, 1_148, 64, 2]),
            (CreateRegion, &[2, 2_052, 1_147, 64, 2]),
            (CreateRegion, &[3, 4_100, 800, 64, 2]),
            (CreateRegion, &[4, 8_196, 20_000, 8, 2]),
        ];
        let expected = [
            vec![Halves::AsManyPages],
            vec![Halves::FewerPages, Halves::OnePageShort],
            vec![Halves::FewerPages],
            vec![Halves::FewerPages, Halves::StartsLower],
        ];
        assert_eq!(halves(&mut Model::fresh(), &calls), expected);
    }

    /// Eight pages from 64 on, of an area for nine.
    const EIGHT: (Directive, &[u32]) = (CreateRegion, &[1, 4, 636, 64, 2]);

    #[test]
    fn cases_of_gets_by_halves() {
        let mut model = Model::fresh();
        halves(&mut model, &[EIGHT]);
        let calls: [(_, &[u32]); 10] = [
            (Get, &[1, 129, 0, 0, 0, 0, 0]),
            (Get, &[1, 64, 0, 0, 0, 0, 0]),
            (Return, &[1, 64]),
            (Get, &[1, 64, 0, 0, 0, 0, 0]),
            (Get, &[1, 513, 0, 0, 0, 0, 0]),
            (Get, &[1, 577, 0, 0, 0, 0, 0]),
            (Get, &[1, 64, 0, 0, 0, 0, 0]),
            (Get, &[1, 512, 0, 1, 1, 1, 0]),
            (Return, &[1, 320]),
            (Get, &[1, 64, 0, 0, 0, 0, 0]),
        ];
        let expected = [
            vec![Halves::RoundedUp],
            vec![Halves::HalvedTwice],
            vec![Halves::JoinsNothing],
            vec![Halves::NotLowest, Halves::TakenWhole],
            vec![Halves::TooLarge],
            vec![],
            vec![Halves::NotLowest],
            vec![],
            vec![Halves::JoinsNothing],
            vec![
                Halves::NotLowest,
                Halves::LowestOfEquals,
                Halves::TakenWhole,
            ],
        ];
        assert_eq!(halves(&mut model, &calls), expected);
    }

    #[test]
    fn cases_of_returns_by_halves() {
        let mut model = Model::fresh();
        halves(&mut model, &[EIGHT, (Get, &[1, 256, 0, 0, 0, 0, 0])]);
        for _ in 0..4 {
            halves(&mut model, &[(Get, &[1, 64, 0, 0, 0, 0, 0])]);
        }
        let calls: [(_, &[u32]); 9] = [
            (Return, &[1, 384]),
            (Return, &[1, 448]),
            (Get, &[1, 128, 0, 0, 0, 0, 0]),
            (Get, &[1, 128, 0, 1, 1, 1, 0]),
            (Return, &[1, 512]),
            (Return, &[1, 512]),
            (Return, &[1, 320]),
            (Return, &[1, 64]),
            (Return, &[1, 448]),
        ];
        let expected = [
            vec![Halves::JoinsNothing],
            vec![Halves::JoinsNothing, Halves::NeighbourApart],
            vec![Halves::RunButNoBlock],
            vec![Halves::RunButNoBlock],
            vec![Halves::JoinServes],
            vec![],
            vec![],
            vec![Halves::JoinsNothing],
            vec![Halves::JoinsTwice],
        ];
        assert_eq!(halves(&mut model, &calls), expected);
    }

    #[test]
    fn cases_of_resizes_and_ticks_by_halves() {
        let mut model = Model::fresh();
        halves(&mut model, &[EIGHT, (Get, &[1, 128, 0, 0, 0, 0, 0])]);
        let calls: [(_, &[u32]); 6] = [
            (Resize, &[1, 64, 128]),
            (Resize, &[1, 64, 65]),
            (Resize, &[1, 64, 64]),
            (Resize, &[1, 64, 256]),
            (Resize, &[1, 64, 513]),
            (Resize, &[1, 65, 64]),
        ];
        let more = Halves::Refused(Pages::More);
        let mut expected = vec![
            vec![],
            vec![],
            vec![Halves::Refused(Pages::Fewer)],
            vec![more, Halves::RefusedBesideRoom],
            vec![more],
            vec![],
        ];
        assert_eq!(halves(&mut model, &calls), expected);
        model.put_waiter([1, 1, 256, 0, 1, 0]);
        halves(&mut model, &[(Get, &[1, 512, 0, 1, 2, 1, 1])]);
        model.put_waiter([3, 1, 128, 0, 1, 0]);
        let calls: [(_, &[u32]); 3] = [
            (Resize, &[1, 64, 128]),
            (Resize, &[1, 320, 129]),
            (Tick, &[]),
        ];
        expected = vec![
            vec![Halves::ResizeServes],
            vec![Halves::KeepsMore],
            vec![Halves::TickServes],
        ];
        assert_eq!(halves(&mut model, &calls), expected);
    }
}
