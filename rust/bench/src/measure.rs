//! Making a scene's call again and again.

use crate::scene::Scene;
use libtest::call::{Buffers, Call, Library};
use libtest::words::ANSWER_WORDS;
use std::hint::black_box;
use std::time::{Duration, Instant};

/// The buffers of a scene, and what sets them back after its call.
pub struct Stage<'a> {
    scene: &'a Scene,
    record: Vec<u32>,
    memory: Vec<u32>,
    answer: Vec<u32>,
    /// The memory words that the call changes, with their old values.
    undo: Vec<(usize, u32)>,
}

impl<'a> Stage<'a> {
    /// Makes the call once, checks what it returns and finds what it changes.
    pub fn new(scene: &'a Scene, library: &mut dyn Library) -> Stage<'a> {
        let answer = match scene.call {
            Call::Read { .. } => vec![0; 2],
            _ => vec![0; ANSWER_WORDS],
        };
        let mut stage = Stage {
            scene,
            record: scene.record.clone(),
            memory: scene.memory.clone(),
            answer,
            undo: Vec::new(),
        };
        let returned = stage.call(library);
        assert_eq!(
            returned,
            scene.returned,
            "{}, {}",
            scene.row,
            scene.load.name()
        );
        if scene.restores_memory {
            let words = scene.memory.iter().zip(&stage.memory).enumerate();
            let changed = words.filter(|(_, (old, new))| old != new);
            stage.undo = changed.map(|(word, (old, _))| (word, *old)).collect();
        }
        stage
    }

    /// Sets the record and the changed memory words back.
    #[inline(never)]
    pub fn restore(&mut self) {
        self.record.copy_from_slice(&self.scene.record);
        for &(word, value) in &self.undo {
            self.memory[word] = value;
        }
    }

    #[inline(never)]
    pub fn call(&mut self, library: &mut dyn Library) -> usize {
        let buffers = Buffers {
            record: black_box(&mut self.record),
            memory: black_box(&mut self.memory),
            answer: black_box(&mut self.answer),
        };
        library.call(buffers, black_box(&self.scene.call))
    }

    /// The time of so many calls, each after setting back; without a library,
    /// of setting back alone.
    fn time(&mut self, library: Option<&mut dyn Library>, times: u32) -> Duration {
        let start = Instant::now();
        match library {
            Some(library) => {
                for _ in 0..times {
                    self.restore();
                    black_box(self.call(library));
                }
            }
            None => {
                for _ in 0..times {
                    self.restore();
                    black_box(&mut self.record);
                }
            }
        }
        start.elapsed()
    }

    /// So many calls that they take about as long as asked.
    fn times_for(&mut self, library: &mut dyn Library, wanted: Duration) -> u32 {
        let mut times = 1;
        loop {
            let took = self.time(Some(&mut *library), times);
            if took >= wanted / 4 || times >= 1 << 20 {
                let ratio = wanted.as_secs_f64() / took.as_secs_f64().max(1e-9);
                return (f64::from(times) * ratio).clamp(1.0, 1e7) as u32;
            }
            times *= 2;
        }
    }
}

/// Nanoseconds for each call by each of the libraries: the least of some
/// batches, which take turns, less the time of setting back.
pub fn nanoseconds(scene: &Scene, libraries: &mut [&mut dyn Library], batches: u32) -> Vec<f64> {
    let wanted = Duration::from_millis(2);
    let mut stages: Vec<(Stage, u32)> = Vec::new();
    for library in libraries.iter_mut() {
        let mut stage = Stage::new(scene, *library);
        let times = stage.times_for(*library, wanted);
        stages.push((stage, times));
    }
    let per_call = |took: Duration, times: u32| took.as_secs_f64() * 1e9 / f64::from(times);
    let mut least = vec![(f64::MAX, f64::MAX); libraries.len()];
    for _ in 0..batches {
        for (index, (stage, times)) in stages.iter_mut().enumerate() {
            let with = stage.time(Some(&mut *libraries[index]), *times);
            let without = stage.time(None, *times);
            least[index].0 = least[index].0.min(per_call(with, *times));
            least[index].1 = least[index].1.min(per_call(without, *times));
        }
    }
    least
        .iter()
        .map(|(with, without)| (with - without).max(0.0))
        .collect()
}
