//! Examples of the rules: lists of calls with their answers, read from
//! `examples.txt`, where their form is told.

use crate::Model;
use directives::words::*;
use directives::{Answer, Call, Directive, Notice};

/// A list of steps from a fresh start, over the largest memory.
pub struct Example {
    pub title: &'static str,
    /// What all words of the memory are before.
    pub fill: u32,
    /// The generation of every slot before.
    pub generation: u32,
    pub steps: Vec<Step>,
}

pub enum Step {
    /// A call with its answer.
    Call(Call, Answer),
    /// A word that a client writes.
    Set(usize, u32),
    /// A waiter who is put into the record, by the words of its place.
    Queue([u32; WAITER_WORDS]),
    /// Words that the memory must have, from a word on.
    Memory(usize, Vec<u32>),
    /// Words that the record must have, from a word on.
    Record(usize, Vec<u32>),
    /// The tasks that must wait, in order.
    Waiting(Vec<u32>),
}

/// All examples.
pub fn all() -> Vec<Example> {
    let mut examples: Vec<Example> = Vec::new();
    for line in include_str!("../examples.txt").lines() {
        if let Some(title) = line.strip_prefix("== ") {
            examples.push(Example {
                title,
                fill: 0,
                generation: 0,
                steps: Vec::new(),
            });
        } else if let Some(example) = examples.last_mut() {
            let line = line.split('#').next().unwrap_or_default().trim();
            if !line.is_empty() {
                example.add(line);
            }
        }
    }
    examples
}

fn numbers(text: &str) -> Vec<u32> {
    let number = |word: &str| word.parse().unwrap_or_else(|_| panic!("number: {text}"));
    text.split_whitespace().map(number).collect()
}

impl Example {
    fn add(&mut self, line: &str) {
        // The first argument with alternatives makes a line for each.
        if let Some(word) = line.split_whitespace().find(|word| word.contains('|')) {
            for one in word.split('|') {
                self.add(&line.replacen(word, one, 1));
            }
            return;
        }
        let (left, right) = line.split_once('=').unwrap_or((line, ""));
        let (name, arguments) = left.trim().split_once(' ').unwrap_or((left.trim(), ""));
        let arguments = numbers(arguments);
        let step = match (name, &arguments[..]) {
            ("fill", &[word]) => {
                self.fill = word;
                return;
            }
            ("generation", &[generation]) => {
                self.generation = generation;
                return;
            }
            ("set", &[word, value]) => Step::Set(word as usize, value),
            ("queue", &[task, id, size, alignment, priority, ticks]) => {
                Step::Queue([task, id, size, alignment, priority, ticks])
            }
            ("memory", &[word]) => Step::Memory(word as usize, numbers(right)),
            ("record", &[word]) => Step::Record(word as usize, numbers(right)),
            ("waiting", []) => Step::Waiting(numbers(right)),
            _ => {
                let call = call_of(name, &arguments);
                let answer = answer_of(&call, right);
                Step::Call(call, answer)
            }
        };
        self.steps.push(step);
    }
}

/// The call with a name and its arguments; what is left over are the words of
/// a write.
fn call_of(name: &str, arguments: &[u32]) -> Call {
    let mut all = Directive::ALL.iter();
    let directive = all.find(|directive| directive.name() == name);
    let directive = directive.unwrap_or_else(|| panic!("no step {name}"));
    let (keys, rest) = arguments.split_at(directive.keys().len());
    let mut call = directive.call(keys);
    match &mut call {
        Call::Write { words, .. } => *words = rest.to_vec(),
        _ => assert!(rest.is_empty(), "arguments of {name}"),
    }
    call
}

/// The answer that a text tells: the status, the value or the six values, and
/// after each comma a notice. A read has only its words.
fn answer_of(call: &Call, text: &str) -> Answer {
    let mut parts = text.split(',').map(numbers);
    let first = parts.next().unwrap_or_default();
    if let Call::Read { .. } = call {
        return Answer {
            words: first,
            ..Answer::default()
        };
    }
    let mut answer = Answer::status(first[0]);
    match (call, &first[1..]) {
        (_, []) => {}
        (Call::Information { .. }, values) => answer.information.copy_from_slice(values),
        (_, values) => answer.value = values[0],
    }
    answer.notices = parts
        .map(|words| Notice {
            task: words[0],
            status: words[1],
            address: words[2],
        })
        .collect();
    answer
}

impl Example {
    /// Whether a script can have the example's calls and come to its answers.
    pub fn is_of_scripts(&self) -> bool {
        let mut steps = self.steps.iter();
        self.generation == 0 && !steps.any(|step| matches!(step, Step::Queue(..)))
    }

    /// A model at the example's start.
    pub fn start(&self) -> Model {
        let mut record = [0; RECORD_WORDS];
        for at in (0..SLOTS).flat_map(|index| [region_at(index), partition_at(index)]) {
            record[at + GENERATION] = self.generation;
        }
        Model::from_record(&record, &vec![self.fill; MEMORY_WORDS])
    }

    /// Whether a model that took all steps up to this one is as it says. The
    /// answer is the one to the last call.
    pub fn check(&self, step: &Step, model: &Model, answer: &Answer) -> Result<(), String> {
        let record = model.record();
        let at = |words: &[u32], first: usize, count: usize| words[first..][..count].to_vec();
        let (found, wanted) = match step {
            Step::Call(call, expected) if answer != expected => {
                return Err(format!("{}: {call:?}: {answer:?}", self.title));
            }
            Step::Call(..) | Step::Set(..) | Step::Queue(..) => return Ok(()),
            Step::Memory(first, words) => (at(model.memory(), *first, words.len()), words),
            Step::Record(first, words) => (at(&record, *first, words.len()), words),
            Step::Waiting(tasks) => (model.waiting_tasks(), tasks),
        };
        if found == *wanted {
            return Ok(());
        }
        Err(format!("{}: {found:?} and not {wanted:?}", self.title))
    }
}

#[cfg(test)]
mod tests {
    use super::*;

    #[test]
    fn the_model_answers_as_the_examples_say() {
        for example in all() {
            let mut model = example.start();
            let mut answer = Answer::default();
            for step in &example.steps {
                match step {
                    Step::Call(call, _) => answer = model.call(call),
                    Step::Set(word, value) => model.client_write(*word, *value),
                    Step::Queue(place) => model.put_waiter(*place),
                    _ => {}
                }
                let checked = example.check(step, &model, &answer);
                assert_eq!(checked, Ok(()));
            }
        }
    }
}
