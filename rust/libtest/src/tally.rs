//! Counts what occurred, and tells what never did.

use crate::damage;
use crate::sound::Clause;
use author::cases::Case;
use directives::words::{status, SLOTS, TASKS};
use directives::{Answer, Directive};
use model::Model;
use std::collections::BTreeMap;
use std::fmt;

#[derive(Clone, Debug, Default)]
pub struct Tally {
    /// All calls.
    pub calls: u64,
    /// Calls on a record and memory that are sound, with right lengths.
    pub sound_calls: u64,
    /// Client writes between calls, in words.
    pub client_words: u64,
    /// Lists of calls.
    pub lists: u64,
    statuses: BTreeMap<(Directive, u32), u64>,
    notices: BTreeMap<u32, u64>,
    /// Cases of ids, names, generations, page counts, alignments, serving and
    /// kinds of regions, on sound records.
    cases: BTreeMap<Case, u64>,
    full_reads: u64,
    empty_reads: u64,
    /// For each kind of damage: how often, and how often still sound.
    damages: BTreeMap<&'static str, (u64, u64)>,
    clauses: BTreeMap<Clause, u64>,
    /// Answers that are too short or too long.
    answer_lengths: u64,
    /// Answers with status 25 that were left as they were, and cleared ones.
    internal_errors: [u64; 2],
    /// Calls that were done with an answer of more words than needed.
    pub long_answers: u64,
    /// The smallest and the largest memory.
    memories: Option<(usize, usize)>,
    /// The most live regions, live partitions and waiters at a time.
    fullest: [usize; 3],
}

impl Tally {
    pub fn add_memory(&mut self, words: usize) {
        let (least, most) = self.memories.unwrap_or((words, words));
        self.memories = Some((least.min(words), most.max(words)));
    }

    /// A call on sound words: its cases, what the model answers, and the state
    /// it is in then.
    pub fn add_sound_call(&mut self, cases: Vec<Case>, answer: &Answer, model: &Model) {
        self.sound_calls += 1;
        for case in cases {
            *self.cases.entry(case).or_default() += 1;
        }
        for notice in &answer.notices {
            *self.notices.entry(notice.status).or_default() += 1;
        }
        let counts = [
            model.region_ids().len(),
            model.partition_ids().len(),
            model.waiting_tasks().len(),
        ];
        for (most, count) in self.fullest.iter_mut().zip(counts) {
            *most = count.max(*most);
        }
    }

    /// A call and what the library returned.
    pub fn add_call(&mut self, directive: Directive, returned: usize) {
        self.calls += 1;
        if directive == Directive::Read {
            let count = if returned == 0 {
                &mut self.empty_reads
            } else {
                &mut self.full_reads
            };
            *count += 1;
        } else {
            *self
                .statuses
                .entry((directive, returned as u32))
                .or_default() += 1;
        }
    }

    /// A call that was answered 25, and whether its answer was cleared.
    pub fn add_internal_error(&mut self, is_cleared: bool) {
        self.internal_errors[usize::from(is_cleared)] += 1;
    }

    /// Damage that was done: its kind, which clause is broken, and whether
    /// the answer's length is wrong.
    pub fn add_damage(
        &mut self,
        title: &'static str,
        broken: Result<(), Clause>,
        wrong_answer: bool,
    ) {
        let (count, sound) = self.damages.entry(title).or_default();
        *count += 1;
        match broken {
            Err(clause) => *self.clauses.entry(clause).or_default() += 1,
            Ok(()) if wrong_answer => self.answer_lengths += 1,
            Ok(()) => *sound += 1,
        }
    }

    fn calls_of(&self, directive: Directive) -> u64 {
        if directive == Directive::Read {
            return self.full_reads + self.empty_reads;
        }
        let counts = self.statuses.iter();
        let own = counts.filter(|((of, _), _)| *of == directive);
        own.map(|(_, count)| count).sum()
    }

    /// What should have occurred at least once and did not.
    pub fn missing(&self) -> Vec<String> {
        let mut missing = self.missing_statuses();
        let counts = [
            (self.full_reads, "a read that is not empty"),
            (self.empty_reads, "a read that is empty"),
            (self.answer_lengths, "an answer of wrong length"),
            (self.client_words, "a client write"),
            (self.long_answers, "an answer of more than 55 words"),
            (self.internal_errors[0], "status 25 with the answer left"),
            (self.internal_errors[1], "status 25 with the answer cleared"),
        ];
        let never = counts.iter().filter(|(count, _)| *count == 0);
        missing.extend(never.map(|(_, what)| what.to_string()));
        if self.fullest != [SLOTS, SLOTS, TASKS] {
            missing.push("full tables of regions, partitions and waiters".to_string());
        }
        let cases = Case::of_library().into_iter();
        let never = cases.filter(|case| !self.cases.contains_key(case));
        missing.extend(never.map(|case| case.to_string()));
        let titles = damage::KINDS.iter().map(|kind| kind.title);
        let never = titles.filter(|title| !self.damages.contains_key(title));
        missing.extend(never.map(|title| format!("damage: {title}")));
        let clauses = Clause::ALL.iter();
        let never = clauses.filter(|clause| !self.clauses.contains_key(clause));
        missing.extend(never.map(|clause| format!("broken clause: {clause}")));
        missing
    }

    fn missing_statuses(&self) -> Vec<String> {
        let mut missing = Vec::new();
        for &directive in Directive::ALL {
            // Every function that has a status can say that the words are unsound.
            let internal = (directive != Directive::Read).then_some(status::INTERNAL_ERROR);
            for status in directive.statuses().iter().copied().chain(internal) {
                if !self.statuses.contains_key(&(directive, status)) {
                    missing.push(format!("{} with status {status}", directive.function()));
                }
            }
        }
        for status in [status::SUCCESSFUL, status::TIMEOUT] {
            if !self.notices.contains_key(&status) {
                missing.push(format!("a notice with status {status}"));
            }
        }
        missing
    }

    fn write_calls(&self, f: &mut fmt::Formatter) -> fmt::Result {
        writeln!(f, "\nCalls by function and status:")?;
        for &directive in Directive::ALL {
            let (function, calls) = (directive.function(), self.calls_of(directive));
            write!(f, "  {function:<28}{calls:>9}")?;
            if directive == Directive::Read {
                let (full, empty) = (self.full_reads, self.empty_reads);
                write!(f, "  words: {full}  none: {empty}")?;
            }
            for (&(of, status), count) in &self.statuses {
                if of == directive {
                    write!(f, "  {status}: {count}")?;
                }
            }
            writeln!(f)?;
        }
        Ok(())
    }

    fn write_statuses(&self, f: &mut fmt::Formatter) -> fmt::Result {
        writeln!(f, "\nCalls by status:")?;
        let mut totals: BTreeMap<u32, u64> = BTreeMap::new();
        for (&(_, status), count) in &self.statuses {
            *totals.entry(status).or_default() += count;
        }
        for (status, count) in &totals {
            writeln!(f, "  {status:<28}{count:>9}")?;
        }
        for (status, count) in &self.notices {
            writeln!(f, "  {:<28}{count:>9}", format!("{status} in a notice"))?;
        }
        let [left, cleared] = self.internal_errors;
        writeln!(
            f,
            "With status 25 the answer was left {left} times and cleared {cleared} times"
        )?;
        let long = self.long_answers;
        writeln!(
            f,
            "With an answer of more than 55 words calls were done {long} times"
        )
    }

    fn write_cases(&self, f: &mut fmt::Formatter) -> fmt::Result {
        writeln!(
            f,
            "\nIds, names, generations, page counts, alignments, serving and kinds of regions:"
        )?;
        for (case, count) in &self.cases {
            writeln!(f, "  {:<58}{count:>9}", case.to_string())?;
        }
        Ok(())
    }

    fn write_damage(&self, f: &mut fmt::Formatter) -> fmt::Result {
        writeln!(
            f,
            "\n{:<54}{:>9}{:>13}",
            "Damage by kind:", "times", "still sound"
        )?;
        for (title, (count, sound)) in &self.damages {
            writeln!(f, "  {title:<52}{count:>9}{sound:>13}")?;
        }
        writeln!(f, "\nFirst broken clause:")?;
        for (clause, count) in &self.clauses {
            writeln!(f, "  {:<52}{count:>9}", clause.title())?;
        }
        let lengths = self.answer_lengths;
        writeln!(f, "  {:<52}{lengths:>9}", "answer not of 55 words")
    }
}

impl fmt::Display for Tally {
    fn fmt(&self, f: &mut fmt::Formatter) -> fmt::Result {
        let (calls, sound) = (self.calls, self.sound_calls);
        let damaged = calls - sound;
        writeln!(
            f,
            "{calls} calls: {sound} on sound records, {damaged} on damaged ones or with wrong lengths"
        )?;
        let (lists, written) = (self.lists, self.client_words);
        let (least, most) = self.memories.unwrap_or_default();
        writeln!(
            f,
            "{lists} lists of calls over memories of {least} to {most} words, {written} words \
             written by clients between calls"
        )?;
        let [regions, partitions, waiters] = self.fullest;
        writeln!(
            f,
            "At most {regions} regions, {partitions} partitions and {waiters} waiters at a time"
        )?;
        self.write_calls(f)?;
        self.write_statuses(f)?;
        self.write_cases(f)?;
        self.write_damage(f)
    }
}
