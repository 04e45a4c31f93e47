//! Cases that a comparison has to reach, of ids, names, generations, page
//! counts, alignments, serving and regions by halves, and how to tell that a
//! call is one.

use crate::alignments::{self, Alignments};
use crate::halves::{rounded, Blocks, Halves};
use crate::names::{Holders, Names};
use directives::words::*;
use directives::Directive::*;
use directives::{Answer, Call, Directive, SCRIPT};
use model::{Kind, Model};
use std::cmp::Ordering;
use std::fmt;
use Case::*;

/// How many pages a resize leaves to a segment.
#[derive(Clone, Copy, Debug, PartialEq, Eq, PartialOrd, Ord)]
pub enum Pages {
    Fewer,
    Same,
    More,
}

impl Pages {
    pub const ALL: [Pages; 3] = [Pages::Fewer, Pages::Same, Pages::More];

    /// By the pages that are asked for, and those that there are.
    pub fn of(asked: u32, held: u32) -> Pages {
        match asked.cmp(&held) {
            Ordering::Less => Pages::Fewer,
            Ordering::Equal => Pages::Same,
            Ordering::Greater => Pages::More,
        }
    }

    pub fn title(self) -> &'static str {
        match self {
            Pages::Fewer => "fewer pages",
            Pages::Same => "as many pages",
            Pages::More => "more pages",
        }
    }
}

#[derive(Clone, Copy, Debug, PartialEq, Eq, PartialOrd, Ord)]
pub enum Case {
    /// A create or an ident answers an id above 15: its slot was used before.
    UsedAgain(Directive),
    /// Of the name of a create.
    Named(Directive, Names),
    /// A call is refused, and its id differs from a live one only in its
    /// generation, which is an earlier one ..
    Earlier(Directive),
    /// .. or a later one.
    Later(Directive),
    /// The time-outs of a tick come from two regions, and the one in the lower
    /// slot has the higher id ..
    SlotsBeforeIds,
    /// .. or its grants.
    GrantsBySlots,
    /// A new region has as many pages as its length divided by the size of a
    /// page and a word ..
    AllPages,
    /// .. or one less.
    OneLess,
    /// A delete leaves a spent slot.
    Spends(Directive),
    /// A create takes a slot above a spent one.
    PassesSpent(Directive),
    /// A create has too many, though a slot is empty: it is spent.
    OnlySpent(Directive),
    /// A resize serves ..
    ResizeServes(Pages),
    /// .. more than one ..
    ResizeServesMore,
    /// .. or nobody, though tasks wait in its region.
    ResizeBlocked(Pages),
    /// A resize is refused for want of room while tasks wait in its region ..
    ResizeRefused,
    /// .. and there is room for the first of them.
    ResizeRefusedBesideRoom,
    /// A tick sends tasks away and serves ..
    TickServes,
    /// .. in two regions ..
    TickServesTwo,
    /// .. in a region that nobody was sent away from ..
    TickServesOther,
    /// .. or nobody, though others wait.
    TickBlocked,
    /// A tick sends nobody away, though tasks wait ..
    TickQuiet,
    /// .. and there is room for the first of a region.
    TickQuietBesideRoom,
    /// A call names a region of a kind, or would make one, and has a status.
    Answered(Kind, Directive, u32),
    /// Of regions by halves.
    ByHalves(Halves),
    /// Of alignments.
    Aligned(Alignments),
}

impl Case {
    /// Those that scripts reach.
    pub fn of_scripts() -> Vec<Case> {
        Case::of_all(SCRIPT)
    }

    /// Those that the library's calls reach, where a record may start anywhere.
    pub fn of_library() -> Vec<Case> {
        let mut cases = Case::of_all(Directive::ALL);
        cases.extend([DeleteRegion, DeletePartition].map(Spends));
        for create in [CreateRegion, CreatePartition] {
            cases.extend([PassesSpent(create), OnlySpent(create)]);
        }
        // After a list of calls there is no room for a first waiter.
        cases.extend([Pages::Same, Pages::More].map(ResizeServes));
        cases.extend([
            ResizeRefusedBesideRoom,
            TickServesOther,
            TickQuietBesideRoom,
            ByHalves(Halves::ResizeServes),
        ]);
        cases.extend([Kind::Pages, Kind::Halves].map(|kind| Answered(kind, Read, 0)));
        cases
    }

    fn of_all(directives: &[Directive]) -> Vec<Case> {
        let answer_ids = [CreateRegion, IdentRegion, CreatePartition, IdentPartition];
        let with_id = directives.iter().copied().filter(|of| of.has_id());
        let mut cases = answer_ids.map(UsedAgain).to_vec();
        for create in [CreateRegion, CreatePartition] {
            let names = Names::of(create).into_iter();
            cases.extend(names.map(|names| Named(create, names)));
        }
        cases.extend(with_id.flat_map(|directive| [Earlier(directive), Later(directive)]));
        cases.extend([SlotsBeforeIds, GrantsBySlots, AllPages, OneLess]);
        cases.extend(Pages::ALL.map(ResizeBlocked));
        cases.extend([
            ResizeServes(Pages::Fewer),
            ResizeServesMore,
            ResizeRefused,
            TickServes,
            TickServesTwo,
            TickBlocked,
            TickQuiet,
        ]);
        cases.extend(Halves::OF_SCRIPTS.map(ByHalves));
        cases.extend(Alignments::all().into_iter().map(Aligned));
        for kind in [Kind::Pages, Kind::Halves] {
            cases.extend(answered(kind, directives));
        }
        cases
    }
}

/// Every status of the calls that name a region of a kind or would make one. An
/// id that is refused names none, and nothing is undefined by pages.
fn answered(kind: Kind, directives: &[Directive]) -> Vec<Case> {
    let mut directives = directives.to_vec();
    directives.retain(|of| (*of == CreateRegion || of.has_id()) && !of.is_of_partitions());
    let is_of_kind = |status: &u32| match *status {
        status::INVALID_ID => false,
        status::NOT_DEFINED => kind == Kind::Halves,
        _ => true,
    };
    let of_region = |directive: Directive| {
        let statuses = directive.statuses().iter().copied();
        let of_kind = statuses.filter(is_of_kind);
        of_kind.map(move |status| Answered(kind, directive, status))
    };
    directives.into_iter().flat_map(of_region).collect()
}

impl fmt::Display for Case {
    fn fmt(&self, out: &mut fmt::Formatter) -> fmt::Result {
        match self {
            UsedAgain(of) => write!(out, "{}: an id above 15", of.name()),
            Named(of, names) => write!(out, "{}: {names}", of.name()),
            Earlier(of) => write!(out, "{}: refused for an earlier generation", of.name()),
            Later(of) => write!(out, "{}: refused for a later generation", of.name()),
            SlotsBeforeIds => write!(out, "tick: the lower slot first, with the higher id"),
            GrantsBySlots => write!(out, "tick: serves the lower slot first, with the higher id"),
            AllPages => write!(out, "{}: as many pages as divided", CreateRegion.name()),
            OneLess => write!(out, "{}: one page less than divided", CreateRegion.name()),
            Spends(of) => write!(out, "{}: leaves a spent slot", of.name()),
            PassesSpent(of) => write!(out, "{}: takes a slot above a spent one", of.name()),
            OnlySpent(of) => write!(out, "{}: status 5 with a spent slot", of.name()),
            ResizeServes(pages) => write!(out, "resize: {}, serves", pages.title()),
            ResizeServesMore => write!(out, "resize: serves more than one"),
            ResizeBlocked(pages) => {
                write!(out, "resize: {}, nobody of the queue fits", pages.title())
            }
            ResizeRefused => write!(out, "resize: status 13 with a queue"),
            ResizeRefusedBesideRoom => write!(out, "resize: status 13, and the first fits"),
            TickServes => write!(out, "tick: serves behind its time-outs"),
            TickServesTwo => write!(out, "tick: serves in two regions"),
            TickServesOther => write!(out, "tick: serves where nobody was sent away"),
            TickBlocked => write!(out, "tick: time-outs, and nobody of the others fits"),
            TickQuiet => write!(out, "tick: no time-out, and tasks wait"),
            TickQuietBesideRoom => write!(out, "tick: no time-out, and a first one fits"),
            Answered(kind, of, status) => {
                write!(out, "{}, {}: status {status}", by(*kind), of.name())
            }
            ByHalves(case) => write!(out, "{}, {case}", by(Kind::Halves)),
            Aligned(case) => write!(out, "alignment, {case}"),
        }
    }
}

fn by(kind: Kind) -> &'static str {
    match kind {
        Kind::Pages => "by pages",
        Kind::Halves => "by halves",
    }
}

/// The ids, the queues, the region that a call names, who has the name of a
/// create and what the call has to do with alignments, before it.
pub struct Before {
    regions: Vec<(u32, bool)>,
    partitions: Vec<(u32, bool)>,
    /// The waiting tasks with their regions' ids.
    waiting: Vec<(u32, u32)>,
    /// The regions with room for the first in their queue.
    to_serve: Vec<u32>,
    /// The kind of the region that the call names or would make ..
    kind: Option<Kind>,
    /// .. and its blocks, if it names one by halves.
    blocks: Option<Blocks>,
    /// Who has the name of a create.
    holders: Option<Holders>,
    alignments: alignments::Before,
}

impl Before {
    pub fn new(model: &Model, call: &Call) -> Before {
        let directive = call.directive();
        let of_region = directive.has_id() && !directive.is_of_partitions();
        let id = of_region.then(|| call.arguments()[0]);
        let kind = match call {
            Call::CreateRegion { order, .. } if !call.has_wrong_choice() => Some(Kind::of(*order)),
            _ => id.and_then(|id| model.kind(id)),
        };
        Before {
            regions: model.region_slots(),
            partitions: model.partition_slots(),
            waiting: model.waiting(),
            to_serve: model.regions_to_serve(),
            kind,
            blocks: id.and_then(|id| Blocks::new(model, id)),
            holders: is_create(directive).then(|| Holders::new(model, call)),
            alignments: alignments::Before::new(model, call),
        }
    }

    /// The cases that a call is, by its answer and the state after it.
    pub fn cases(&self, call: &Call, answer: &Answer, after: &Model) -> Vec<Case> {
        let directive = call.directive();
        let mut cases = match directive {
            CreateRegion => {
                let mut cases = self.of_create(directive, answer);
                cases.extend(of_pages(call, answer, after));
                cases
            }
            CreatePartition => self.of_create(directive, answer),
            IdentRegion | IdentPartition => vec![(answer.value >= ID_STEP, UsedAgain(directive))],
            Tick => self.of_tick(answer, after),
            Resize => {
                let mut cases = self.of_id(directive, call.arguments()[0], answer);
                cases.extend(self.of_resize(call, answer, after));
                cases
            }
            _ if directive.has_id() => self.of_id(directive, call.arguments()[0], answer),
            _ => vec![],
        };
        if let Some(holders) = &self.holders {
            let names = holders.cases(answer).into_iter();
            cases.extend(names.map(|(is, names)| (is, Named(directive, names))));
        }
        cases.extend(self.of_kind(directive, answer));
        if let Some(blocks) = &self.blocks {
            let halves = blocks.cases(call, answer, after).into_iter();
            cases.extend(halves.map(|(is, case)| (is, ByHalves(case))));
        }
        let alignments = self.alignments.cases(call, answer, after).into_iter();
        cases.extend(alignments.map(|(is, case)| (is, Aligned(case))));
        let is = cases.into_iter().filter(|(is, _)| *is);
        is.map(|(_, case)| case).collect()
    }

    fn slots(&self, directive: Directive) -> &[(u32, bool)] {
        if directive.is_of_partitions() {
            &self.partitions
        } else {
            &self.regions
        }
    }

    fn of_kind(&self, directive: Directive, answer: &Answer) -> Option<(bool, Case)> {
        // A refused read has no words. Status 25 says nothing of the region.
        let is_read = directive != Read || !answer.words.is_empty();
        let is_answered = is_read && !answer.is_internal_error();
        let kind = self.kind?;
        Some((is_answered, Answered(kind, directive, answer.status)))
    }

    fn of_create(&self, create: Directive, answer: &Answer) -> Vec<(bool, Case)> {
        let slots = self.slots(create).iter();
        let mut spent = slots.filter(|(id, _)| generation_of(*id) >= GENERATIONS);
        let lowest = spent.next().map(|(id, _)| slot_of(*id));
        let is_done = answer.status == status::SUCCESSFUL;
        let is_above = lowest.is_some_and(|slot| slot < slot_of(answer.value));
        let too_many = answer.status == status::TOO_MANY;
        vec![
            (answer.value >= ID_STEP, UsedAgain(create)),
            (is_done && is_above, PassesSpent(create)),
            (too_many && lowest.is_some(), OnlySpent(create)),
        ]
    }

    fn of_id(&self, directive: Directive, id: u32, answer: &Answer) -> Vec<(bool, Case)> {
        // A refused read has no status.
        let is_refused = directive == Read || answer.status == status::INVALID_ID;
        let mut live = self.slots(directive).iter().filter(|(_, live)| *live);
        let other = live.find(|(other, _)| slot_of(*other) == slot_of(id));
        let (is_earlier, is_later) = match other {
            Some((other, _)) => (id < *other, id > *other),
            None => (false, false),
        };
        let is_delete = matches!(directive, DeleteRegion | DeletePartition);
        let is_last = generation_of(id) == GENERATIONS - 1;
        let is_done = answer.status == status::SUCCESSFUL;
        vec![
            (is_refused && is_earlier, Earlier(directive)),
            (is_refused && is_later, Later(directive)),
            (is_delete && is_last && is_done, Spends(directive)),
        ]
    }

    fn of_resize(&self, resize: &Call, answer: &Answer, after: &Model) -> Vec<(bool, Case)> {
        let (id, size) = (resize.arguments()[0], resize.arguments()[2]);
        let mut waiting = self.waiting.iter();
        let Some((page, _)) = after.pages(id).filter(|_| waiting.any(|(_, of)| *of == id)) else {
            return vec![];
        };
        let pages = match self.kind {
            Some(Kind::Halves) => rounded(size.div_ceil(page)),
            _ => size.div_ceil(page),
        };
        // The value is the old length.
        let pages = Pages::of(pages, answer.value / page);
        let is_done = answer.status == status::SUCCESSFUL;
        let is_refused = answer.status == status::UNSATISFIED;
        let served = answer.notices.len();
        vec![
            (is_done && served > 0, ResizeServes(pages)),
            (is_done && served > 1, ResizeServesMore),
            (is_done && served == 0, ResizeBlocked(pages)),
            (is_refused, ResizeRefused),
            (
                is_refused && self.to_serve.contains(&id),
                ResizeRefusedBesideRoom,
            ),
        ]
    }

    fn of_tick(&self, answer: &Answer, after: &Model) -> Vec<(bool, Case)> {
        let away = self.regions_of(answer, status::TIMEOUT);
        let served = self.regions_of(answer, status::SUCCESSFUL);
        let others_wait = !after.waiting().is_empty();
        let is_quiet = away.is_empty();
        let is_served = !served.is_empty();
        let is_by_halves = |id: &u32| after.kind(*id) == Some(Kind::Halves);
        vec![
            (
                served.iter().any(is_by_halves),
                ByHalves(Halves::TickServes),
            ),
            (is_by_slots(&away), SlotsBeforeIds),
            (is_by_slots(&served), GrantsBySlots),
            (!is_quiet && is_served, TickServes),
            (served.windows(2).any(|two| two[0] != two[1]), TickServesTwo),
            (
                served.iter().any(|region| !away.contains(region)),
                TickServesOther,
            ),
            (!is_quiet && !is_served && others_wait, TickBlocked),
            (is_quiet && others_wait, TickQuiet),
            (is_quiet && !self.to_serve.is_empty(), TickQuietBesideRoom),
        ]
    }

    /// The ids of the regions in which the tasks of a status waited, by notice.
    fn regions_of(&self, answer: &Answer, status: u32) -> Vec<u32> {
        let region_of = |task: u32| {
            let mut waiting = self.waiting.iter();
            waiting.find(|(waits, _)| *waits == task).map(|(_, id)| *id)
        };
        let notices = answer.notices.iter().filter(|n| n.status == status);
        notices.filter_map(|n| region_of(n.task)).collect()
    }
}

fn is_create(directive: Directive) -> bool {
    matches!(directive, CreateRegion | CreatePartition)
}

/// Whether regions get their notices in an order that is not that of ids.
fn is_by_slots(ids: &[u32]) -> bool {
    ids.windows(2)
        .any(|two| slot_of(two[0]) < slot_of(two[1]) && two[0] > two[1])
}

/// How a new region's page count stands to the division, or by halves to that
/// by pages.
fn of_pages(create: &Call, answer: &Answer, after: &Model) -> Vec<(bool, Case)> {
    let (id, length) = (answer.value, create.arguments()[2]);
    let region = after.pages(id);
    let Some((page, pages)) = region.filter(|_| answer.status == status::SUCCESSFUL) else {
        return vec![];
    };
    if after.kind(id) == Some(Kind::Pages) {
        let most = length / (page + 4);
        return vec![(pages == most, AllPages), (pages + 1 == most, OneLess)];
    }
    let halves = Blocks::new(after, id).map(|blocks| blocks.of_create());
    let halves = halves.into_iter().flatten();
    halves.map(|(is, case)| (is, ByHalves(case))).collect()
}

#[cfg(test)]
pub mod tests {
    use super::*;

    /// The cases of some calls in turn.
    pub fn all_cases(model: &mut Model, calls: &[(Directive, &[u32])]) -> Vec<Vec<Case>> {
        let mut all = Vec::new();
        for (directive, arguments) in calls {
            let call = directive.call(arguments);
            let before = Before::new(model, &call);
            let answer = model.call(&call);
            all.push(before.cases(&call, &answer, model));
        }
        all
    }

    /// The same without those of a status.
    fn cases(model: &mut Model, calls: &[(Directive, &[u32])]) -> Vec<Vec<Case>> {
        let mut all = all_cases(model, calls);
        for cases in &mut all {
            cases.retain(|case| !matches!(case, Answered(..)));
        }
        all
    }

    const LOW: (Directive, &[u32]) = (CreateRegion, &[1, 1_024, 128, 64, 0]);
    const HIGH: (Directive, &[u32]) = (CreateRegion, &[2, 2_048, 128, 64, 0]);

    #[test]
    fn cases_of_slots_that_are_used_again() {
        let mut model = Model::fresh();
        let calls: [(_, &[u32]); 15] = [
            LOW,
            HIGH,
            (DeleteRegion, &[1]),
            LOW,
            (IdentRegion, &[1]),
            (Information, &[1]),
            (Information, &[33]),
            (Information, &[9]),
            (Read, &[1, 1_088]),
            (Read, &[17, 1_088]),
            (Get, &[17, 64, 0, 0, 0, 0, 0]),
            (Get, &[2, 64, 0, 0, 0, 0, 0]),
            (Get, &[2, 64, 0, 1, 1, 1, 1]),
            (Get, &[17, 64, 0, 1, 2, 1, 1]),
            (Tick, &[]),
        ];
        let mut expected = vec![vec![]; calls.len()];
        expected[0] = vec![AllPages];
        expected[1] = vec![AllPages];
        let by_name = Named(CreateRegion, Names::Deleted);
        expected[3] = vec![UsedAgain(CreateRegion), AllPages, by_name];
        expected[4] = vec![UsedAgain(IdentRegion)];
        expected[5] = vec![Earlier(Information)];
        expected[6] = vec![Later(Information)];
        expected[8] = vec![Earlier(Read)];
        expected[14] = vec![SlotsBeforeIds];
        assert_eq!(cases(&mut model, &calls), expected);
    }

    #[test]
    fn cases_of_spent_slots() {
        let mut record = [0; RECORD_WORDS];
        for index in 0..SLOTS {
            record[region_at(index) + GENERATION] = GENERATIONS;
        }
        record[region_at(4) + GENERATION] = GENERATIONS - 1;
        let mut model = Model::from_record(&record, &[0; 1_024]);
        let last = id_of(4, GENERATIONS - 1);
        let calls: [(_, &[u32]); 4] = [LOW, HIGH, (DeleteRegion, &[last]), LOW];
        let expected = [
            vec![UsedAgain(CreateRegion), PassesSpent(CreateRegion), AllPages],
            vec![OnlySpent(CreateRegion)],
            vec![Spends(DeleteRegion)],
            vec![OnlySpent(CreateRegion)],
        ];
        assert_eq!(cases(&mut model, &calls), expected);
    }

    #[test]
    fn cases_of_page_counts() {
        let calls: [(_, &[u32]); 4] = [
            (CreateRegion, &[1, 56, 136, 64, 0]),
            (CreateRegion, &[2, 1_024, 123, 64, 0]),
            (CreateRegion, &[3, 1_077, 136, 64, 0]),
            (CreateRegion, &[4, 2_056, 1_020, 64, 0]),
        ];
        let expected = [vec![AllPages], vec![], vec![OneLess], vec![OneLess]];
        assert_eq!(cases(&mut Model::fresh(), &calls), expected);
    }

    /// Fourteen pages from 1,088 on, and fourteen from 2,112 on.
    const A: (Directive, &[u32]) = (CreateRegion, &[1, 1_024, 1_020, 64, 0]);
    const B: (Directive, &[u32]) = (CreateRegion, &[2, 2_048, 1_020, 64, 0]);

    #[test]
    fn cases_of_resizes() {
        let mut model = Model::fresh();
        cases(&mut model, &[A, (Get, &[1, 896, 0, 0, 0, 0, 0])]);
        let calls: [(_, &[u32]); 10] = [
            (Resize, &[1, 1_088, 896]),
            (Get, &[1, 192, 0, 1, 1, 1, 0]),
            (Get, &[1, 64, 0, 1, 2, 1, 0]),
            (Get, &[1, 896, 0, 1, 3, 1, 0]),
            (Resize, &[1, 1_088, 896]),
            (Resize, &[1, 1_088, 768]),
            (Resize, &[1, 1_088, 832]),
            (Resize, &[1, 1_088, 897]),
            (Resize, &[1, 1_088, 640]),
            (Resize, &[1, 1_088, 576]),
        ];
        let mut expected = vec![vec![]; calls.len()];
        expected[4] = vec![ResizeBlocked(Pages::Same)];
        expected[5] = vec![ResizeBlocked(Pages::Fewer)];
        expected[6] = vec![ResizeBlocked(Pages::More)];
        expected[7] = vec![ResizeRefused];
        expected[8] = vec![ResizeServes(Pages::Fewer), ResizeServesMore];
        expected[9] = vec![ResizeBlocked(Pages::Fewer)];
        assert_eq!(cases(&mut model, &calls), expected);
    }

    #[test]
    fn cases_of_ticks() {
        let mut model = Model::fresh();
        cases(&mut model, &[A, B, (DeleteRegion, &[1]), A]);
        let calls: [(_, &[u32]); 16] = [
            (Get, &[2, 768, 0, 0, 0, 0, 0]),
            (Get, &[2, 128, 0, 0, 0, 0, 0]),
            (Get, &[17, 768, 0, 0, 0, 0, 0]),
            (Get, &[17, 128, 0, 0, 0, 0, 0]),
            (Tick, &[]),
            (Get, &[2, 192, 0, 1, 1, 1, 2]),
            (Get, &[17, 192, 0, 1, 2, 1, 2]),
            (Get, &[2, 64, 0, 1, 3, 1, 0]),
            (Get, &[17, 64, 0, 1, 4, 1, 0]),
            (Tick, &[]),
            (Return, &[2, 2_880]),
            (Return, &[17, 1_856]),
            (Tick, &[]),
            (Get, &[2, 896, 0, 1, 5, 1, 0]),
            (Get, &[2, 896, 0, 1, 6, 1, 1]),
            (Tick, &[]),
        ];
        let mut expected = vec![vec![]; calls.len()];
        expected[9] = vec![TickQuiet];
        expected[12] = vec![SlotsBeforeIds, GrantsBySlots, TickServes, TickServesTwo];
        expected[15] = vec![TickBlocked];
        assert_eq!(cases(&mut model, &calls), expected);
    }

    /// Cases beside room for a first waiter.
    #[test]
    fn cases_that_no_list_of_calls_reaches() {
        let mut model = Model::fresh();
        cases(&mut model, &[A, B, (Get, &[1, 64, 0, 0, 0, 0, 0])]);
        for (task, (directive, arguments), expected) in [
            (
                1,
                (Resize, &[1, 1_088, 65][..]),
                vec![ResizeServes(Pages::More)],
            ),
            (
                2,
                (Resize, &[1, 1_088, 128]),
                vec![ResizeServes(Pages::Same)],
            ),
            (
                3,
                (Resize, &[1, 1_088, 129]),
                vec![ResizeRefused, ResizeRefusedBesideRoom],
            ),
            (4, (Tick, &[]), vec![TickQuiet, TickQuietBesideRoom]),
        ] {
            model.put_waiter([task, 1, 64, 0, 1, 0]);
            let found = cases(&mut model, &[(directive, arguments)]);
            assert_eq!(found, [expected]);
        }
        let calls: [(_, &[u32]); 3] = [
            (Get, &[2, 896, 0, 0, 0, 0, 0]),
            (Get, &[2, 896, 0, 1, 5, 1, 1]),
            (Tick, &[]),
        ];
        let expected = [vec![], vec![], vec![TickServes, TickServesOther]];
        assert_eq!(cases(&mut model, &calls), expected);
    }

    #[test]
    fn cases_of_a_kind() {
        let calls: [(_, &[u32]); 9] = [
            (CreateRegion, &[1, 4, 1_020, 64, 3]),
            (CreateRegion, &[2, 4, 1_020, 64, 2]),
            (CreateRegion, &[2, 4, 1_020, 64, 1]),
            (CreateRegion, &[2, 4, 1_020, 64, 4]),
            (Get, &[1, 512, 0, 0, 0, 0, 0]),
            (Get, &[2, 512, 0, 0, 0, 0, 0]),
            (Read, &[1, 64]),
            (Read, &[1, 65]),
            (Tick, &[]),
        ];
        let mut found = all_cases(&mut Model::fresh(), &calls);
        for cases in &mut found {
            cases.retain(|case| matches!(case, Answered(..)));
        }
        let expected = [
            vec![Answered(Kind::Halves, CreateRegion, 0)],
            vec![Answered(Kind::Halves, CreateRegion, 9)],
            vec![Answered(Kind::Pages, CreateRegion, 9)],
            vec![],
            vec![Answered(Kind::Halves, Get, 0)],
            vec![],
            vec![Answered(Kind::Halves, Read, 0)],
            vec![],
            vec![],
        ];
        assert_eq!(found, expected);
        let asked = Case::of_library();
        assert!(asked.contains(&Answered(Kind::Halves, Get, 255)));
        assert!(asked.contains(&Answered(Kind::Pages, Write, 8)));
        assert!(asked.contains(&Answered(Kind::Halves, Get, 11)));
        assert!(!asked.contains(&Answered(Kind::Pages, Get, 11)));
        assert!(!asked.contains(&Answered(Kind::Halves, Get, 4)));
        assert!(!asked.contains(&Answered(Kind::Halves, GetBuffer, 0)));
    }
}
