//! Cases of names: a create under a name that some object has or had.

use directives::words::{slot_of, status};
use directives::{Answer, Call, Directive};
use model::{Area, Model};
use std::fmt;

/// The names of objects, as one kind sees them.
pub struct Seen {
    /// Those of its live objects, with their slots.
    pub own: Vec<(u32, usize)>,
    /// Those of the live objects of the other kind.
    pub other: Vec<u32>,
    /// Those of its deleted objects, of each slot the last.
    pub old: Vec<u32>,
}

impl Seen {
    /// By the kind of object that a directive is about.
    pub fn new(model: &Model, directive: Directive) -> Seen {
        let (regions, partitions) = (model.region_names(), model.partition_names());
        let (names, ids, other, old) = match directive.is_of_partitions() {
            true => (
                partitions,
                model.partition_ids(),
                regions,
                model.old_partition_names(),
            ),
            false => (
                regions,
                model.region_ids(),
                partitions,
                model.old_region_names(),
            ),
        };
        let slots = ids.into_iter().filter_map(slot_of);
        Seen {
            own: names.into_iter().zip(slots).collect(),
            other,
            old,
        }
    }

    /// The slot of the kind's live object with a name.
    fn slot(&self, name: u32) -> Option<usize> {
        let found = self.own.iter().find(|(own, _)| *own == name);
        found.map(|(_, slot)| *slot)
    }

    pub fn is_taken(&self, name: u32) -> bool {
        self.slot(name).is_some()
    }
}

/// What is wrong with a create beside its name: what would refuse it first, if
/// the name were a new one.
#[derive(Clone, Copy, Debug, PartialEq, Eq, PartialOrd, Ord)]
pub enum Wrong {
    StartZero,
    /// The start of a partition.
    Unaligned,
    PastMemory,
    Size,
    Overlap,
    TooMany,
}

impl Wrong {
    /// By the status under a new name.
    fn of(create: &Call, status: u32, model: &Model) -> Option<Wrong> {
        let arguments = create.arguments();
        let area = Area::new(arguments[1], arguments[2]);
        let is_aligned = !create.directive().is_of_partitions() || area.start.is_multiple_of(4);
        match status {
            status::INVALID_SIZE => Some(Wrong::Size),
            status::TOO_MANY => Some(Wrong::TooMany),
            status::INVALID_ADDRESS if area.start == 0 => Some(Wrong::StartZero),
            status::INVALID_ADDRESS if !is_aligned => Some(Wrong::Unaligned),
            status::INVALID_ADDRESS if area.end() > u64::from(model.memory_bytes()) => {
                Some(Wrong::PastMemory)
            }
            status::INVALID_ADDRESS => Some(Wrong::Overlap),
            _ => None,
        }
    }

    fn title(self) -> &'static str {
        match self {
            Wrong::StartZero => "start 0",
            Wrong::Unaligned => "a start between words",
            Wrong::PastMemory => "past the memory",
            Wrong::Size => "a wrong size",
            Wrong::Overlap => "an overlap",
            Wrong::TooMany => "no slot left",
        }
    }
}

/// What the name of a create comes to.
#[derive(Clone, Copy, Debug, PartialEq, Eq, PartialOrd, Ord)]
pub enum Names {
    /// A create is refused for the name of a live object of its kind, in a slot
    /// below the one that it would take ..
    Below,
    /// .. or above it. Nothing else is wrong.
    Above,
    /// Something else is wrong too.
    Beside(Wrong),
    /// A create is done with the name of a live object of the other kind ..
    OtherKind,
    /// .. or with that of a deleted one.
    Deleted,
}

impl Names {
    /// All that a create can come to.
    pub fn of(create: Directive) -> Vec<Names> {
        let mut wrong = vec![
            Wrong::StartZero,
            Wrong::PastMemory,
            Wrong::Size,
            Wrong::Overlap,
            Wrong::TooMany,
        ];
        if create.is_of_partitions() {
            wrong.push(Wrong::Unaligned);
        }
        let mut names: Vec<Names> = wrong.into_iter().map(Names::Beside).collect();
        names.extend([Names::Below, Names::Above, Names::OtherKind, Names::Deleted]);
        names
    }
}

impl fmt::Display for Names {
    fn fmt(&self, out: &mut fmt::Formatter) -> fmt::Result {
        match self {
            Names::Below => write!(out, "a taken name, in a lower slot"),
            Names::Above => write!(out, "a taken name, in a higher slot"),
            Names::Beside(wrong) => write!(out, "a taken name, and {}", wrong.title()),
            Names::OtherKind => write!(out, "done, with a name of the other kind"),
            Names::Deleted => write!(out, "done, with the name of a deleted one"),
        }
    }
}

/// Who has the name of a create, before it.
pub struct Holders {
    /// What it comes to if it is refused for its name.
    taken: Option<Names>,
    other_kind: bool,
    deleted: bool,
}

impl Holders {
    pub fn new(model: &Model, create: &Call) -> Holders {
        let seen = Seen::new(model, create.directive());
        let name = create.arguments()[0];
        let slot = seen.slot(name);
        Holders {
            taken: slot.and_then(|slot| taken(model, create, &seen, slot)),
            other_kind: seen.other.contains(&name),
            deleted: seen.old.contains(&name),
        }
    }

    /// The cases that the create can be, and whether it is.
    pub fn cases(&self, answer: &Answer) -> Vec<(bool, Names)> {
        let is_done = answer.status == status::SUCCESSFUL;
        let is_refused = answer.status == status::INVALID_NAME;
        let mut cases = vec![
            (is_done && self.other_kind, Names::OtherKind),
            (is_done && self.deleted, Names::Deleted),
        ];
        cases.extend(self.taken.map(|names| (is_refused, names)));
        cases
    }
}

/// What a create comes to whose name the object in a slot has, by what it would
/// come to under a new name.
fn taken(model: &Model, create: &Call, seen: &Seen, slot: usize) -> Option<Names> {
    let mut arguments = create.arguments();
    arguments[0] = (1..).find(|name| !seen.is_taken(*name))?;
    let renamed = create.directive().call(&arguments);
    let answer = model.clone().call(&renamed);
    if answer.status != status::SUCCESSFUL {
        return Wrong::of(create, answer.status, model).map(Names::Beside);
    }
    let next = slot_of(answer.value)?;
    Some(if slot < next {
        Names::Below
    } else {
        Names::Above
    })
}

#[cfg(test)]
mod tests {
    use super::*;
    use crate::cases::tests::all_cases;
    use crate::cases::Case;
    use Directive::*;

    /// The cases of names of some calls in turn.
    fn names(model: &mut Model, calls: &[(Directive, &[u32])]) -> Vec<Vec<Names>> {
        let of_names = |case: Case| match case {
            Case::Named(_, names) => Some(names),
            _ => None,
        };
        let all = all_cases(model, calls).into_iter();
        all.map(|cases| cases.into_iter().filter_map(of_names).collect())
            .collect()
    }

    #[test]
    fn cases_of_names_of_regions() {
        let calls: [(_, &[u32]); 18] = [
            (CreateRegion, &[1, 1_024, 128, 64, 0]),
            (CreatePartition, &[2, 8_192, 16, 8]),
            (CreateRegion, &[2, 2_048, 128, 64, 0]),
            (CreateRegion, &[1, 3_072, 128, 64, 0]),
            (CreateRegion, &[0, 3_072, 128, 64, 0]),
            (CreateRegion, &[1, 0, 128, 64, 0]),
            (CreateRegion, &[1, 65_500, 128, 64, 0]),
            (CreateRegion, &[1, u32::MAX, u32::MAX, 0, 0]),
            (CreateRegion, &[1, 3_072, 128, 0, 0]),
            (CreateRegion, &[1, 3_072, 10, 64, 0]),
            (CreateRegion, &[1, 2_040, 200, 64, 0]),
            (CreateRegion, &[1, 3_072, 128, 64, 4]),
            (CreateRegion, &[3, 0, 128, 64, 0]),
            (DeleteRegion, &[1]),
            (CreateRegion, &[2, 3_072, 128, 64, 0]),
            (CreateRegion, &[1, 3_072, 128, 64, 0]),
            (IdentRegion, &[1]),
            (CreateRegion, &[1, 4_096, 128, 64, 0]),
        ];
        let beside = |wrong| vec![Names::Beside(wrong)];
        let mut expected = vec![vec![]; calls.len()];
        expected[2] = vec![Names::OtherKind];
        expected[3] = vec![Names::Below];
        expected[5] = beside(Wrong::StartZero);
        expected[6] = beside(Wrong::PastMemory);
        expected[7] = beside(Wrong::PastMemory);
        expected[8] = beside(Wrong::Size);
        expected[9] = beside(Wrong::Size);
        expected[10] = beside(Wrong::Overlap);
        expected[14] = vec![Names::Above];
        expected[15] = vec![Names::Deleted];
        expected[17] = vec![Names::Below];
        assert_eq!(names(&mut Model::fresh(), &calls), expected);
    }

    #[test]
    fn cases_of_names_of_partitions() {
        let mut model = Model::fresh();
        let calls: [(_, &[u32]); 8] = [
            (CreateRegion, &[1, 1_024, 128, 64, 0]),
            (CreatePartition, &[1, 2_048, 16, 8]),
            (CreatePartition, &[1, 4_098, 16, 8]),
            (CreatePartition, &[1, 4_096, 16, 9]),
            (CreatePartition, &[2, 4_096, 16, 8]),
            (DeletePartition, &[1]),
            (CreatePartition, &[2, 2_048, 16, 8]),
            (CreatePartition, &[1, 2_048, 16, 8]),
        ];
        let mut expected = vec![vec![]; calls.len()];
        expected[1] = vec![Names::OtherKind];
        expected[2] = vec![Names::Beside(Wrong::Unaligned)];
        expected[3] = vec![Names::Beside(Wrong::Size)];
        expected[6] = vec![Names::Above];
        expected[7] = vec![Names::OtherKind, Names::Deleted];
        assert_eq!(names(&mut model, &calls), expected);
        for name in 3..9 {
            let create = [name, 8_192 + 16 * name, 16, 8];
            assert_eq!(names(&mut model, &[(CreatePartition, &create)]), [[]]);
        }
        let full = names(&mut model, &[(CreatePartition, &[8, 4, 16, 8])]);
        assert_eq!(full, [[Names::Beside(Wrong::TooMany)]]);
    }
}
