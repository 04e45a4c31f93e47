//! The two kinds of region: by pages, and by halves.
//!
//! Of either kind no more is kept than which loan owns each page. What is free
//! follows from that: by pages it is each longest run of free pages, and by
//! halves what is left where all pages are halved, and those halves again, up
//! to the parts of one owner.

use directives::words::is_by_halves;

/// The owner of a page that is free.
pub const NOBODY: u32 = 0;

#[derive(Clone, Copy, Debug, PartialEq, Eq, PartialOrd, Ord)]
pub enum Kind {
    Pages,
    Halves,
}

pub fn is_free(pages: &[u32]) -> bool {
    pages.iter().all(|&owner| owner == NOBODY)
}

/// Adds the blocks of some pages: all of them, if they have one owner, or those
/// of their low half and then those of their high half.
fn add_blocks<'a>(pages: &'a [u32], blocks: &mut Vec<&'a [u32]>) {
    if pages.iter().all(|owner| *owner == pages[0]) {
        blocks.push(pages);
        return;
    }
    let (low, high) = pages.split_at(pages.len() / 2);
    add_blocks(low, blocks);
    add_blocks(high, blocks);
}

impl Kind {
    /// The kind that a region of an order is of.
    pub fn of(order: u32) -> Kind {
        if is_by_halves(order) {
            Kind::Halves
        } else {
            Kind::Pages
        }
    }

    /// The most pages that a region can have, where so many fit or not.
    pub fn count(self, fits: impl Fn(&u64) -> bool) -> u64 {
        match self {
            Kind::Pages => (1..).take_while(fits).count() as u64,
            Kind::Halves => {
                let doubled = std::iter::successors(Some(1), |pages| Some(2 * pages));
                doubled.take_while(fits).last().unwrap_or(0)
            }
        }
    }

    /// The pages that a request of so many comes to.
    pub fn rounded(self, pages: usize) -> usize {
        match self {
            Kind::Pages => pages,
            Kind::Halves => pages.next_power_of_two(),
        }
    }

    /// The parts of a region's pages that are its segments, each with its
    /// first page.
    pub fn runs<'a>(self, owners: &'a [u32]) -> Vec<(usize, &'a [u32])> {
        let mut runs = Vec::new();
        match self {
            Kind::Pages => runs.extend(owners.chunk_by(|a, b| a == b)),
            Kind::Halves => add_blocks(owners, &mut runs),
        }
        let mut next = 0;
        let with_first = |run: &'a [u32]| {
            let first = next;
            next += run.len();
            (first, run)
        };
        runs.into_iter().map(with_first).collect()
    }

    /// The first page of the place for so many pages, rounded ones. By pages
    /// it is the lowest of those that may come first; by halves, where each
    /// may, it is the low end of a smallest free block, and of these the lowest.
    pub fn place(
        self,
        owners: &[u32],
        pages: usize,
        may_be_first: impl Fn(usize) -> bool,
    ) -> Option<usize> {
        if self == Kind::Pages {
            let mut runs = owners.windows(pages).enumerate();
            let place = runs.find(|(first, run)| may_be_first(*first) && is_free(run));
            return place.map(|(first, _)| first);
        }
        let mut free = self.runs(owners);
        free.retain(|(_, block)| is_free(block) && block.len() >= pages);
        let smallest = free.into_iter().min_by_key(|(_, block)| block.len());
        smallest.map(|(first, _)| first)
    }
}
