//! Long scripts for the programs, and timing the programs on them.

use author::Random;
use directives::{Call, MAX_SCRIPT};
use model::Model;
use std::fs::File;
use std::path::Path;
use std::process::{Command, Stdio};
use std::time::{Duration, Instant};

/// A kind of script: full tables with large maps, or one region and one
/// partition.
#[derive(Clone, Copy, PartialEq, Eq)]
pub enum Script {
    Full,
    One,
}

impl Script {
    pub const ALL: [Script; 2] = [Script::Full, Script::One];

    pub fn name(self) -> &'static str {
        match self {
            Script::Full => "full",
            Script::One => "one",
        }
    }

    pub fn title(self) -> &'static str {
        match self {
            Script::Full => "8 regions of 341 pages and 8 partitions of 511 buffers",
            Script::One => "a region of 15 pages and a partition of 8 buffers",
        }
    }

    /// The script's bytes and its number of calls: it creates the objects and
    /// then makes calls of all kinds, as many as fit.
    pub fn write(self) -> (Vec<u8>, usize) {
        let mut model = Model::fresh();
        let mut random = Random::for_list(7, self as u64);
        let mut bytes = Vec::new();
        let mut calls = 0;
        let mut add = |model: &mut Model, call: &Call| {
            let text = call.to_script();
            if bytes.len() + text.len() > MAX_SCRIPT {
                return false;
            }
            bytes.extend_from_slice(text.as_bytes());
            model.call(call);
            calls += 1;
            true
        };
        for index in 0..self.objects() {
            let (length, page) = self.region_shape();
            let start = index * 4_096 + 4;
            add(
                &mut model,
                &Call::CreateRegion {
                    name: index + 1,
                    start,
                    length,
                    page,
                    order: index % 2,
                },
            );
            let (length, size) = self.partition_shape();
            add(
                &mut model,
                &Call::CreatePartition {
                    name: index + 1,
                    start: start + 32_768,
                    length,
                    size,
                },
            );
        }
        loop {
            let call = self.call(&mut random, &model);
            if !add(&mut model, &call) {
                return (bytes, calls);
            }
        }
    }

    fn objects(self) -> u32 {
        match self {
            Script::Full => 8,
            Script::One => 1,
        }
    }

    fn region_shape(self) -> (u32, u32) {
        match self {
            Script::Full => (4_092, 8),
            Script::One => (1_020, 64),
        }
    }

    fn partition_shape(self) -> (u32, u32) {
        match self {
            Script::Full => (4_092, 8),
            Script::One => (192, 24),
        }
    }

    /// A call on the live objects; most succeed.
    fn call(self, random: &mut Random, model: &Model) -> Call {
        let id = random.between(1, self.objects());
        let (_, page) = self.region_shape();
        let (_, pages) = model.pages(id).expect("every region is live");
        let mut held = model.segments(id);
        held.retain(|segment| segment.held);
        let segment = random.pick_any(&held);
        let buffer = random.pick_any(&model.held_buffers(id));
        let address = segment.map_or(64, |segment| segment.address);
        match random.between(0, 99) {
            0..=29 => {
                let most = if random.chance(10) { pages } else { 6 };
                Call::Get {
                    id,
                    size: random.between(1, most * page),
                    alignment: 0,
                    wait: random.between(0, 1),
                    task: random.between(1, 16),
                    priority: random.between(1, 255),
                    ticks: random.between(0, 20),
                }
            }
            30..=49 => Call::Return { id, address },
            50..=59 => Call::Resize {
                id,
                address,
                size: random.between(1, 6 * page),
            },
            60..=64 => Call::Size { id, address },
            65..=69 => Call::Information { id },
            70..=84 => Call::GetBuffer { id },
            85..=92 => Call::ReturnBuffer {
                id,
                address: buffer.unwrap_or(4),
            },
            93..=95 => Call::IdentRegion { name: id },
            _ => Call::Tick,
        }
    }
}

/// Runs a program on a script, and gives what it wrote and the time from its
/// start to its end.
fn run(program: &str, script: &Path) -> Result<(Vec<u8>, Duration), String> {
    let input = File::open(script).map_err(|error| format!("{}: {error}", script.display()))?;
    let start = Instant::now();
    let output = Command::new(program)
        .stdin(input)
        .stderr(Stdio::inherit())
        .output()
        .map_err(|error| format!("{program}: {error}"))?;
    let took = start.elapsed();
    if !output.status.success() {
        return Err(format!("{program} failed"));
    }
    Ok((output.stdout, took))
}

/// The least time of each program on a script, taking turns; their outputs
/// must be the same.
pub fn times(programs: &[String; 2], script: &Path, runs: u32) -> Result<[Duration; 2], String> {
    let mut least = [Duration::MAX; 2];
    for _ in 0..runs {
        let (first, first_took) = run(&programs[0], script)?;
        let (second, second_took) = run(&programs[1], script)?;
        if first != second {
            return Err(format!("{}: the outputs differ", script.display()));
        }
        least[0] = least[0].min(first_took);
        least[1] = least[1].min(second_took);
    }
    Ok(least)
}

#[cfg(test)]
mod tests {
    use super::*;

    #[test]
    fn scripts_are_nearly_full() {
        for script in Script::ALL {
            let (bytes, calls) = script.write();
            assert!((MAX_SCRIPT - 100..=MAX_SCRIPT).contains(&bytes.len()));
            assert!(calls > 500);
            assert_eq!(script.write().0, bytes);
            let longest = bytes
                .split_inclusive(|&byte| byte == b'\n')
                .map(<[u8]>::len);
            assert!(longest.max() <= Some(64));
        }
    }
}
