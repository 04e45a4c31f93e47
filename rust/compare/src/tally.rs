//! Counts what the scripts have led to.

use crate::kinds::{Kind, ROUND};
use author::cases::{Before, Case};
use directives::{Answer, Directive, Notice, SCRIPT};
use model::Model;
use std::collections::BTreeMap;
use std::fmt;

/// Every status that a notice can have.
const NOTICES: [u32; 2] = [0, 6];

/// The keys that take only a few numbers.
const CHOICES: [&str; 2] = ["order", "wait"];

/// What can be wrong where the key of alignments is due.
const ALIGNMENTS: [&str; 2] = ["align without a number", "no align"];

/// Counts over all scripts that were compared.
#[derive(Default)]
pub struct Tally {
    kinds: BTreeMap<Kind, u64>,
    calls: BTreeMap<(Directive, u32), u64>,
    statuses: BTreeMap<u32, u64>,
    notices: BTreeMap<u32, u64>,
    cases: BTreeMap<Case, u64>,
    too_long: u64,
    bad_lines: u64,
    /// Bad lines in which a number is no choice of this key.
    bad_choices: BTreeMap<&'static str, u64>,
    /// Bad lines where the key of alignments is due.
    bad_alignments: BTreeMap<&'static str, u64>,
}

impl Tally {
    /// Counts a script and the output on which both programs agreed.
    pub fn add(&mut self, kind: Kind, script: &[u8], output: &[u8]) {
        *self.kinds.entry(kind).or_default() += 1;
        let (answers, bad) = answers_of(output);
        match bad {
            Some(0) => self.too_long += 1,
            Some(line) => {
                self.bad_lines += 1;
                if let Some(key) = wrong_choice(script, line) {
                    *self.bad_choices.entry(key).or_default() += 1;
                }
                if let Some(title) = wrong_alignment(script, line) {
                    *self.bad_alignments.entry(title).or_default() += 1;
                }
            }
            None => {}
        }
        // Calls are answered in turn. The model tells which ids were live and who waited.
        let mut model = Model::fresh();
        for (call, answer) in second::calls(script).iter().zip(&answers) {
            let called = (call.directive(), answer.status);
            *self.calls.entry(called).or_default() += 1;
            *self.statuses.entry(answer.status).or_default() += 1;
            for notice in &answer.notices {
                *self.notices.entry(notice.status).or_default() += 1;
            }
            let before = Before::new(&model, call);
            model.call(call);
            for case in before.cases(call, answer, &model) {
                *self.cases.entry(case).or_default() += 1;
            }
        }
    }

    /// What should have occurred and did not.
    pub fn missing(&self) -> Vec<String> {
        let mut missing = Vec::new();
        for kind in ROUND {
            let title = format!("a script of the kind \"{}\"", kind.title());
            if !self.kinds.contains_key(&kind) && !missing.contains(&title) {
                missing.push(title);
            }
        }
        for &directive in SCRIPT {
            for &status in directive.statuses() {
                if !self.calls.contains_key(&(directive, status)) {
                    missing.push(format!("status {status} of {}", directive.name()));
                }
            }
        }
        for status in NOTICES {
            if !self.notices.contains_key(&status) {
                missing.push(format!("status {status} in a notice"));
            }
        }
        let cases = Case::of_scripts().into_iter();
        let never = cases.filter(|case| !self.cases.contains_key(case));
        missing.extend(never.map(|case| case.to_string()));
        if self.too_long == 0 {
            missing.push("bad=0".to_string());
        }
        if self.bad_lines == 0 {
            missing.push("bad= with a line number".to_string());
        }
        for key in CHOICES {
            if !self.bad_choices.contains_key(key) {
                missing.push(format!("bad= for a number that is no {key}"));
            }
        }
        for title in ALIGNMENTS {
            if !self.bad_alignments.contains_key(title) {
                missing.push(format!("bad= for {title}"));
            }
        }
        missing
    }
}

/// The lines of a script, each with its newline if it has one.
fn lines_of(script: &[u8]) -> impl Iterator<Item = &[u8]> {
    script.split_inclusive(|&byte| byte == b'\n')
}

/// Whether a script's bad line would be right with a key and the number 0.
fn is_due(key: &str, script: &[u8], line: u32) -> bool {
    let before: Vec<&[u8]> = lines_of(script).take(line as usize - 1).collect();
    let mended = [&before.concat(), format!("{key}=0\n").as_bytes()].concat();
    let (_, still_bad) = answers_of(&second::run(&mended));
    still_bad != Some(line)
}

/// The key of a script's bad line, if all that is wrong there is that its
/// number is no choice.
fn wrong_choice(script: &[u8], line: u32) -> Option<&'static str> {
    let bad = lines_of(script).nth(line as usize - 1)?;
    let bad = std::str::from_utf8(bad).ok()?.strip_suffix('\n')?;
    let (key, text) = bad.split_once('=')?;
    let key = CHOICES.into_iter().find(|choice| *choice == key)?;
    let number: u32 = text.parse().ok()?;
    (number.to_string() == text && is_due(key, script, line)).then_some(key)
}

/// What is wrong in a script's bad line, if the key of alignments is due there.
fn wrong_alignment(script: &[u8], line: u32) -> Option<&'static str> {
    let [no_number, no_key] = ALIGNMENTS;
    let bad = lines_of(script).nth(line as usize - 1).unwrap_or_default();
    let title = match bad.starts_with(b"align=") {
        true => no_number,
        false => no_key,
    };
    is_due("align", script, line).then_some(title)
}

/// The answers that an output has, and the number of its bad line. A value
/// behind a task is the address of its notice.
fn answers_of(output: &[u8]) -> (Vec<Answer>, Option<u32>) {
    let mut answers: Vec<Answer> = Vec::new();
    let mut bad = None;
    for line in String::from_utf8_lossy(output).lines() {
        let Some((key, number)) = line.split_once('=') else {
            continue;
        };
        let Ok(number) = number.parse::<u32>() else {
            continue;
        };
        match (key, answers.last_mut()) {
            ("status", _) => answers.push(Answer::status(number)),
            ("bad", _) => bad = Some(number),
            ("task", Some(answer)) => answer.notices.push(Notice {
                task: number,
                status: 0,
                address: 0,
            }),
            ("with", Some(answer)) => {
                if let Some(notice) = answer.notices.last_mut() {
                    notice.status = number;
                }
            }
            ("value", Some(answer)) => match answer.notices.last_mut() {
                Some(notice) => notice.address = number,
                None => answer.value = number,
            },
            _ => {}
        }
    }
    (answers, bad)
}

impl fmt::Display for Tally {
    fn fmt(&self, out: &mut fmt::Formatter) -> fmt::Result {
        writeln!(out, "Scripts by kind:")?;
        for (kind, count) in &self.kinds {
            writeln!(out, "  {:<22}{count:>9}", kind.title())?;
        }
        writeln!(out, "Calls by status:")?;
        for (status, count) in &self.statuses {
            writeln!(out, "  {status:<22}{count:>9}")?;
        }
        writeln!(out, "Notices by status:")?;
        for (status, count) in &self.notices {
            writeln!(out, "  {status:<22}{count:>9}")?;
        }
        writeln!(out, "Scripts that end with a bad line:")?;
        writeln!(out, "  {:<22}{:>9}", "bad=0", self.too_long)?;
        writeln!(out, "  {:<22}{:>9}", "bad= line number", self.bad_lines)?;
        for (key, count) in &self.bad_choices {
            writeln!(out, "  {:<22}{count:>9}", format!("of these no {key}"))?;
        }
        for (title, count) in &self.bad_alignments {
            writeln!(out, "  {title:<22}{count:>9}")?;
        }
        writeln!(out, "Statuses (and how often) by call:")?;
        for &directive in SCRIPT {
            write!(out, "  {:<16}", directive.name())?;
            for (&(of, status), count) in &self.calls {
                if of == directive {
                    write!(out, "  {status} ({count})")?;
                }
            }
            writeln!(out)?;
        }
        writeln!(
            out,
            "Ids, names, generations, page counts, alignments, serving and kinds of regions:"
        )?;
        for (case, count) in &self.cases {
            writeln!(out, "  {:<58}{count:>9}", case.to_string())?;
        }
        Ok(())
    }
}

#[cfg(test)]
mod tests {
    use super::*;
    use crate::kinds::Kind as ScriptKind;
    use author::names::{Names, Wrong};
    use model::Kind;

    #[test]
    fn outputs_are_counted() {
        let mut tally = Tally::default();
        let script = b"call=tick\ncall=info\nid=9\ncall=return\nid=1\naddress=4\ncall=x\n";
        let output = b"status=0\nvalue=0\ntask=3\nwith=6\nvalue=0\n\
                       status=4\nvalue=0\nstatus=9\nvalue=0\nbad=8\n";
        tally.add(ScriptKind::Mixed, script, output);
        tally.add(ScriptKind::AtLimit, b"", b"bad=0\n");
        assert_eq!(tally.calls[&(Directive::Tick, 0)], 1);
        assert_eq!(tally.calls[&(Directive::Information, 4)], 1);
        assert_eq!(tally.calls[&(Directive::Return, 9)], 1);
        assert_eq!(tally.notices[&6], 1);
        assert_eq!((tally.bad_lines, tally.too_long), (1, 1));
        let missing = tally.missing();
        assert!(missing.contains(&"status 0 in a notice".to_string()));
        assert!(missing.contains(&"status 255 of get".to_string()));
        assert!(!missing.contains(&"status 4 of info".to_string()));
    }

    /// Every case is asked for, and one that a script reaches is counted.
    #[test]
    fn cases_are_counted() {
        let mut tally = Tally::default();
        let create = "call=create-region\nname=1\nstart=4\nlength=1020\npage=64\norder=0\n";
        let script = format!(
            "{create}call=delete-region\nid=1\n{create}{create}call=info\nid=1\ncall=tick\n"
        );
        tally.add(
            ScriptKind::Mixed,
            script.as_bytes(),
            &second::run(script.as_bytes()),
        );
        let expected = [
            (Case::UsedAgain(Directive::CreateRegion), 1),
            (Case::Named(Directive::CreateRegion, Names::Deleted), 1),
            (
                Case::Named(Directive::CreateRegion, Names::Beside(Wrong::Overlap)),
                1,
            ),
            (Case::Earlier(Directive::Information), 1),
            (Case::AllPages, 2),
            (Case::Answered(Kind::Pages, Directive::CreateRegion, 0), 2),
            (Case::Answered(Kind::Pages, Directive::CreateRegion, 3), 1),
            (Case::Answered(Kind::Pages, Directive::DeleteRegion, 0), 1),
        ];
        assert_eq!(tally.cases, expected.into());
        let missing = tally.missing();
        for case in Case::of_scripts() {
            let is_missing = missing.contains(&case.to_string());
            assert_eq!(is_missing, !tally.cases.contains_key(&case), "{case}");
        }
    }

    /// A number that is no choice is told from other bad lines.
    #[test]
    fn wrong_choices_are_counted() {
        let create = |order: &str| {
            format!("call=create-region\nname=1\nstart=4\nlength=1020\npage=64\norder={order}\n")
        };
        let get = |wait: &str| format!("call=tick\ncall=get\nid=1\nsize=1\nalign=0\nwait={wait}\n");
        for (script, line, key) in [
            (create("4"), 6, Some("order")),
            (create("4294967295"), 6, Some("order")),
            (get("2"), 6, Some("wait")),
            (create("4294967296"), 6, None),
            (create("04"), 6, None),
            (create(""), 6, None),
            ("order=4\n".to_string(), 1, None),
            ("call=info\norder=4\n".to_string(), 2, None),
        ] {
            let output = second::run(script.as_bytes());
            assert_eq!(answers_of(&output).1, Some(line), "{script}");
            assert_eq!(wrong_choice(script.as_bytes(), line), key, "{script}");
        }
    }

    /// So are bad lines where the key of alignments is due.
    #[test]
    fn wrong_alignments_are_counted() {
        let get = |rest: &str| format!("call=tick\ncall=get\nid=1\nsize=1\n{rest}");
        for (script, line, title) in [
            (get("align=\n"), 5, Some(ALIGNMENTS[0])),
            (get("align=064\n"), 5, Some(ALIGNMENTS[0])),
            (get("align=4294967296\nwait=0\n"), 5, Some(ALIGNMENTS[0])),
            (get("wait=0\nalign=0\n"), 5, Some(ALIGNMENTS[1])),
            (get(""), 5, Some(ALIGNMENTS[1])),
            (get("align=0\nwait=2\n"), 6, None),
            (get("align=0\nalign=0\n"), 6, None),
            ("call=get\nid=1\nalign=0\n".to_string(), 3, None),
        ] {
            let output = second::run(script.as_bytes());
            assert_eq!(answers_of(&output).1, Some(line), "{script}");
            assert_eq!(wrong_alignment(script.as_bytes(), line), title, "{script}");
        }
    }
}
