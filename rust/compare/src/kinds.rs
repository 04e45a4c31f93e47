//! The kinds of scripts that are made up.

use crate::damage;
use crate::script::Script;
use crate::script::Step::{self, *};
use author::Random;
use directives::Directive::*;
use directives::{MAX_SCRIPT, SCRIPT};

#[derive(Clone, Copy, Debug, PartialEq, Eq, PartialOrd, Ord)]
pub enum Kind {
    Mixed,
    Refused,
    Waiting,
    Serving,
    Partitions,
    Resizing,
    Halves,
    ManySegments,
    Layouts,
    Slots,
    Generations,
    Names,
    Alignments,
    Edges,
    BadNumber,
    BadName,
    DamagedBytes,
    DamagedLines,
    NoAlignments,
    CutOff,
    NoLastNewline,
    CarriageReturns,
    LongLine,
    AtLimit,
    Noise,
    Empty,
}

impl Kind {
    pub fn title(self) -> &'static str {
        match self {
            Kind::Mixed => "mixed calls",
            Kind::Refused => "refused calls",
            Kind::Waiting => "waiting and ticks",
            Kind::Serving => "serving",
            Kind::Partitions => "partitions",
            Kind::Resizing => "resizing",
            Kind::Halves => "halving and joining",
            Kind::ManySegments => "many segments",
            Kind::Layouts => "layouts",
            Kind::Slots => "all slots in use",
            Kind::Generations => "slots used again",
            Kind::Names => "names",
            Kind::Alignments => "alignments",
            Kind::Edges => "numbers at the edges",
            Kind::BadNumber => "bad number",
            Kind::BadName => "bad name",
            Kind::DamagedBytes => "damaged bytes",
            Kind::DamagedLines => "damaged lines",
            Kind::NoAlignments => "gets without align",
            Kind::CutOff => "cut off",
            Kind::NoLastNewline => "no last newline",
            Kind::CarriageReturns => "carriage returns",
            Kind::LongLine => "long line",
            Kind::AtLimit => "at the length limit",
            Kind::Noise => "noise",
            Kind::Empty => "empty",
        }
    }
}

/// The kinds in turn. Those with more to find come more often.
pub const ROUND: [Kind; 59] = [
    Kind::Mixed,
    Kind::Waiting,
    Kind::Serving,
    Kind::Refused,
    Kind::Partitions,
    Kind::Resizing,
    Kind::Halves,
    Kind::Layouts,
    Kind::Slots,
    Kind::Generations,
    Kind::Names,
    Kind::Alignments,
    Kind::Edges,
    Kind::BadNumber,
    Kind::DamagedBytes,
    Kind::Mixed,
    Kind::Waiting,
    Kind::Refused,
    Kind::Partitions,
    Kind::Resizing,
    Kind::Halves,
    Kind::Layouts,
    Kind::Generations,
    Kind::Alignments,
    Kind::DamagedLines,
    Kind::CutOff,
    Kind::BadName,
    Kind::BadNumber,
    Kind::AtLimit,
    Kind::Mixed,
    Kind::Waiting,
    Kind::Serving,
    Kind::Refused,
    Kind::Slots,
    Kind::Resizing,
    Kind::Layouts,
    Kind::Alignments,
    Kind::NoAlignments,
    Kind::NoLastNewline,
    Kind::CarriageReturns,
    Kind::DamagedBytes,
    Kind::LongLine,
    Kind::ManySegments,
    Kind::Mixed,
    Kind::Waiting,
    Kind::Serving,
    Kind::Halves,
    Kind::Refused,
    Kind::Partitions,
    Kind::Generations,
    Kind::Names,
    Kind::Alignments,
    Kind::Edges,
    Kind::BadName,
    Kind::DamagedLines,
    Kind::CutOff,
    Kind::AtLimit,
    Kind::Noise,
    Kind::Empty,
];

/// Makes up the script with this index.
pub fn script(seed: u64, index: u64) -> (Kind, Vec<u8>) {
    let kind = ROUND[(index % ROUND.len() as u64) as usize];
    let mut random = Random::for_list(seed, index);
    (kind, script_of(kind, &mut random))
}

fn script_of(kind: Kind, random: &mut Random) -> Vec<u8> {
    match kind {
        Kind::Noise => return damage::noise(random),
        Kind::Empty => return Vec::new(),
        _ => {}
    }
    if let Some(text) = good_script(kind, random) {
        return text;
    }
    let mut text = short_script(random);
    match kind {
        Kind::BadNumber if random.chance(50) => damage::choice(&mut text, random),
        Kind::BadNumber => damage::number(&mut text, random),
        Kind::DamagedBytes => damage::bytes(&mut text, random),
        Kind::BadName => damage::name(&mut text, random),
        Kind::DamagedLines => damage::lines(&mut text, random),
        Kind::NoAlignments => damage::alignments(&mut text, random),
        Kind::CutOff if random.chance(50) => damage::cut_off(&mut text, random),
        Kind::CutOff => damage::cut_off_lines(&mut text, random),
        Kind::NoLastNewline => damage::last_newline(&mut text),
        Kind::CarriageReturns => damage::carriage_returns(&mut text, random),
        Kind::LongLine => damage::long_line(&mut text, random),
        _ => damage::to_limit(&mut text, random),
    }
    text
}

/// A script of one of the kinds that have no bad line.
fn good_script(kind: Kind, random: &mut Random) -> Option<Vec<u8>> {
    let limit = match random.below(3) {
        _ if kind == Kind::ManySegments => MAX_SCRIPT,
        0 => MAX_SCRIPT,
        1 => random.between(8_000, 32_768) as usize,
        _ => random.between(1_000, 8_000) as usize,
    };
    let mut script = Script::new(random.split(), limit);
    match kind {
        Kind::Mixed => mixed(&mut script),
        Kind::Refused => refused(&mut script),
        Kind::Waiting => waiting(&mut script),
        Kind::Serving => serving(&mut script),
        Kind::Partitions => partitions(&mut script),
        Kind::Resizing => resizing(&mut script),
        Kind::Halves => halves(&mut script),
        Kind::ManySegments => many_segments(&mut script),
        Kind::Layouts => layouts(&mut script),
        Kind::Slots => slots(&mut script),
        Kind::Generations => generations(&mut script),
        Kind::Names => names(&mut script),
        Kind::Alignments => alignments(&mut script),
        Kind::Edges => edges(&mut script),
        _ => return None,
    }
    Some(script.into_text())
}

/// A short good script, to be spoiled.
fn short_script(random: &mut Random) -> Vec<u8> {
    let limit = match random.below(8) {
        0 => random.between(5_000, 30_000),
        _ => random.between(300, 3_000),
    } as usize;
    let mut script = Script::new(random.split(), limit);
    match script.random.below(4) {
        0 => waiting(&mut script),
        1 => partitions(&mut script),
        _ => mixed(&mut script),
    }
    script.into_text()
}

/// Every call of a script now and then, and some steps more often.
fn every_and(more: &[(u32, Step)]) -> Vec<(u32, Step)> {
    let every = SCRIPT.iter().map(|&directive| (1, One(directive)));
    every.chain(more.iter().copied()).collect()
}

fn mixed(script: &mut Script) {
    script.style.odd = script.random.pick(&[0, 2, 6]);
    script.style.longest = script.random.pick(&[1_000, 4_000, 12_000]);
    script.repeat(1, 6, One(CreateRegion));
    script.repeat(0, 4, One(CreatePartition));
    script.fill(&every_and(&[
        (29, One(Get)),
        (23, One(Return)),
        (5, One(Size)),
        (9, One(Resize)),
        (7, One(Information)),
        (7, One(Tick)),
        (5, One(GetBuffer)),
        (5, One(ReturnBuffer)),
        (2, One(CreateRegion)),
        (1, One(CreatePartition)),
        (1, One(IdentRegion)),
        (1, One(IdentPartition)),
        (1, One(DeleteRegion)),
        (2, ClearRegion),
        (1, ClearPartition),
    ]));
}

/// Each argument is often wrong on its own, so that calls with more than one
/// wrong argument show the order of the checks.
fn refused(script: &mut Script) {
    script.style.odd = 0;
    script.style.taken_names = 0;
    script.style.longest = 2_000;
    if script.random.chance(40) {
        script.repeat(8, 9, One(CreateRegion));
        script.repeat(8, 9, One(CreatePartition));
    } else {
        script.repeat(1, 4, One(CreateRegion));
        script.repeat(1, 3, One(CreatePartition));
    }
    script.repeat(5, 20, One(Get));
    script.repeat(1, 5, One(GetBuffer));
    script.style.odd = script.random.pick(&[20, 35, 50]);
    script.style.taken_names = script.random.pick(&[5, 20]);
    script.style.waits = 70;
    script.fill(&every_and(&[
        (11, One(CreateRegion)),
        (11, One(CreatePartition)),
        (19, One(Get)),
        (5, One(Return)),
        (5, One(Size)),
        (11, One(Resize)),
        (2, One(Information)),
        (1, One(IdentRegion)),
        (1, One(IdentPartition)),
        (3, One(DeleteRegion)),
        (3, One(DeletePartition)),
        (3, One(GetBuffer)),
        (5, One(ReturnBuffer)),
    ]));
}

fn waiting(script: &mut Script) {
    script.style.odd = script.random.pick(&[0, 0, 3]);
    script.style.longest = script.random.pick(&[300, 1_000, 3_000]);
    script.style.waits = 90;
    script.repeat(1, 4, One(CreateRegion));
    let ticks = script.random.pick(&[1, 6, 20]);
    script.fill(&[
        (40, One(Get)),
        (16, One(Return)),
        (ticks, One(Tick)),
        (2, One(Resize)),
        (2, One(Information)),
        (1, One(DeleteRegion)),
        (1, ClearRegion),
        (1, One(CreateRegion)),
    ]);
}

/// Tasks behind a first one who does not fit, in several regions, until a
/// resize makes room or a tick sends the first one away.
fn serving(script: &mut Script) {
    script.style.odd = script.random.pick(&[0, 0, 3]);
    script.style.longest = script.random.pick(&[300, 1_000, 3_000]);
    script.style.waits = 90;
    script.repeat(2, 6, One(CreateRegion));
    script.fill(&[
        (8, BlockedQueue),
        (8, One(Tick)),
        (8, One(Resize)),
        (4, One(Get)),
        (4, One(Return)),
        (2, RenewRegion),
        (1, One(Information)),
    ]);
}

fn partitions(script: &mut Script) {
    script.style.odd = script.random.pick(&[0, 4, 10]);
    script.style.longest = script.random.pick(&[100, 400, 3_000, 60_000]);
    script.repeat(1, 8, One(CreatePartition));
    script.fill(&[
        (30, One(GetBuffer)),
        (24, One(ReturnBuffer)),
        (2, DrainPartition),
        (2, One(CreatePartition)),
        (1, One(CreateRegion)),
        (1, One(IdentRegion)),
        (1, One(IdentPartition)),
        (1, One(DeletePartition)),
        (1, ClearPartition),
    ]);
}

fn resizing(script: &mut Script) {
    script.style.odd = script.random.pick(&[0, 3]);
    script.style.longest = script.random.pick(&[600, 2_000, 30_000]);
    script.style.waits = 20;
    script.repeat(1, 2, One(CreateRegion));
    script.repeat(10, 60, LittleGet);
    script.fill(&[
        (12, LittleGet),
        (4, One(Get)),
        (14, One(Return)),
        (30, One(Resize)),
        (6, One(Size)),
        (6, One(Information)),
        (1, One(Tick)),
    ]);
}

/// Small blocks in regions by halves come and go, so that many are halved and
/// joined, now and then for a task that waits.
fn halves(script: &mut Script) {
    script.style.odd = script.random.pick(&[0, 3]);
    script.style.halves = 100;
    script.style.longest = script.random.pick(&[300, 1_000, 6_000]);
    script.style.waits = script.random.pick(&[0, 50, 90]);
    script.repeat(1, 3, One(CreateRegion));
    script.repeat(4, 30, LittleGet);
    script.fill(&[
        (16, LittleGet),
        (8, One(Get)),
        (20, One(Return)),
        (4, One(Resize)),
        (3, One(Information)),
        (2, One(Size)),
        (2, One(Tick)),
        (2, Neighbours),
        (1, RenewRegion),
    ]);
}

/// Some hundred segments in one region.
fn many_segments(script: &mut Script) {
    script.style.odd = 0;
    script.style.waits = 0;
    script.create_fine_region();
    let crumbs = script.random.pick(&[0, 50, 100]);
    while script.fill_percent() < 85 {
        if script.random.chance(crumbs) {
            script.take(TrimmedGet);
        } else {
            script.take(LittleGet);
        }
    }
    script.fill(&[
        (10, One(Return)),
        (5, One(Information)),
        (3, One(Size)),
        (3, One(Resize)),
        (3, LittleGet),
    ]);
}

fn layouts(script: &mut Script) {
    script.style.odd = script.random.pick(&[0, 5]);
    script.fill(&[
        (20, Layout),
        (1, One(DeleteRegion)),
        (2, ClearRegion),
        (1, One(CreatePartition)),
        (1, ClearPartition),
    ]);
}

fn slots(script: &mut Script) {
    script.style.odd = script.random.pick(&[0, 5]);
    script.style.longest = 500;
    script.repeat(7, 9, One(CreateRegion));
    script.repeat(7, 9, One(CreatePartition));
    script.fill(&[
        (10, One(CreateRegion)),
        (10, One(CreatePartition)),
        (3, One(IdentRegion)),
        (3, One(IdentPartition)),
        (4, One(DeleteRegion)),
        (4, One(DeletePartition)),
        (4, ClearRegion),
        (4, ClearPartition),
        (6, One(Get)),
        (6, One(GetBuffer)),
        (3, One(Tick)),
    ]);
}

/// Slots are used again and again, old ids are named, and tasks wait in several
/// regions at a time.
fn generations(script: &mut Script) {
    script.style.odd = script.random.pick(&[3, 15, 30]);
    script.style.longest = script.random.pick(&[100, 300, 1_000]);
    script.style.waits = 90;
    script.repeat(2, 5, One(CreateRegion));
    script.repeat(1, 3, One(CreatePartition));
    script.fill(&every_and(&[
        (3, RenewRegion),
        (3, RenewPartition),
        (20, One(Get)),
        (5, One(Return)),
        (2, One(Resize)),
        (3, One(GetBuffer)),
        (2, One(ReturnBuffer)),
        (4, One(Tick)),
    ]));
}

/// Names that live objects have, of the same kind and of the other one, and
/// names of deleted objects; now and then something else is wrong too.
fn names(script: &mut Script) {
    script.style.odd = script.random.pick(&[0, 10, 30]);
    script.style.longest = script.random.pick(&[200, 1_000]);
    script.style.taken_names = 0;
    script.repeat(2, 9, One(CreateRegion));
    script.repeat(2, 9, One(CreatePartition));
    script.style.taken_names = 50;
    script.fill(&[
        (16, One(CreateRegion)),
        (16, One(CreatePartition)),
        (3, HigherName(CreateRegion)),
        (3, HigherName(CreatePartition)),
        (3, One(IdentRegion)),
        (3, One(IdentPartition)),
        (3, ClearRegion),
        (3, ClearPartition),
        (2, One(Get)),
        (2, One(GetBuffer)),
    ]);
}

/// Gets on wide alignments in small regions by pages, tasks that wait with
/// them, and alignments that are refused, now and then by halves.
fn alignments(script: &mut Script) {
    script.style.odd = script.random.pick(&[0, 5, 30]);
    script.style.halves = script.random.pick(&[0, 10, 40]);
    script.style.alignments = 70;
    script.style.small_gets = 70;
    script.style.waits = script.random.pick(&[20, 60]);
    script.style.longest = script.random.pick(&[400, 1_500, 12_000]);
    script.style.largest_unit = script.random.pick(&[24, 64, 512]);
    script.repeat(1, 4, One(CreateRegion));
    script.fill(&[
        (12, AlignedGet),
        (6, AlignedQueue),
        (6, WrongAlignment),
        (16, One(Get)),
        (12, One(Return)),
        (6, One(Resize)),
        (6, One(Tick)),
        (2, One(Information)),
        (3, RenewRegion),
        (1, One(CreateRegion)),
    ]);
}

fn edges(script: &mut Script) {
    script.repeat(0, 3, One(CreateRegion));
    script.repeat(0, 3, One(CreatePartition));
    script.repeat(0, 10, One(Get));
    script.fill(&[(10, Edges), (1, One(Get)), (1, ClearRegion)]);
}

#[cfg(test)]
mod tests {
    use super::*;
    use second::run;

    fn has_bad_line(script: &[u8]) -> bool {
        String::from_utf8(run(script)).unwrap().contains("bad=")
    }

    #[test]
    fn the_same_seed_gives_the_same_scripts() {
        for index in 0..80 {
            assert_eq!(script(5, index), script(5, index));
        }
        assert_ne!(script(5, 0), script(6, 0));
        assert_ne!(script(5, 0), script(5, ROUND.len() as u64));
    }

    #[test]
    fn good_kinds_have_no_bad_line() {
        for index in 0..200 {
            let (kind, text) = script(7, index);
            if kind <= Kind::Edges {
                assert!(text.len() <= MAX_SCRIPT);
                assert!(!has_bad_line(&text), "{kind:?} {index}");
            }
        }
    }

    #[test]
    fn a_missing_last_newline_is_a_bad_line() {
        for index in 0..200 {
            let (kind, text) = script(7, index);
            if kind == Kind::NoLastNewline {
                assert!(has_bad_line(&text));
            }
        }
    }
}
