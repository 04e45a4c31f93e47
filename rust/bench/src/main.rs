//! Times the library beside an ordinary implementation of the same checks,
//! and the program beside the second program. See `HELP` for the arguments.

mod measure;
mod scene;
mod script;

use libtest::call::Library;
use libtest::plain::Plain;
use measure::Stage;
use scene::{Load, Scene, ROWS};
use script::Script;
use std::path::{Path, PathBuf};
use std::process::ExitCode;

const HELP: &str = "\
Time the library beside an ordinary implementation, or the two programs.

Usage: bench calls [--row TEXT] [--batches N]
       bench count [ROW LOAD]
       bench scripts FOLDER
       bench programs FOLDER PROGRAM SECOND [--runs N]

  calls      nanoseconds for each call, for each row and load: the least of some
             batches (default 15), library and ordinary implementation taking
             turns on the same inputs. --row keeps the rows with the text
  count      a few calls of each row and load, or of one, for callgrind;
             rust/bench/callgrind runs it
  scripts    write the long scripts and an empty one into a folder
  programs   run both programs on the scripts in the folder, taking turns, and
             print the least time of each (default of 20 runs) and the ratio
";

/// How many calls `count` makes of each row.
const COUNTED_CALLS: u32 = 4;

fn main() -> ExitCode {
    let arguments: Vec<String> = std::env::args().skip(1).collect();
    let words: Vec<&str> = arguments.iter().map(String::as_str).collect();
    let result = match words.as_slice() {
        ["calls", options @ ..] => calls(options),
        ["count"] => {
            count(|_, _| true);
            Ok(())
        }
        ["count", row, load] => {
            count(|scene_row, scene_load| scene_row == *row && scene_load == *load);
            Ok(())
        }
        ["scripts", folder] => write_scripts(Path::new(folder)),
        ["programs", folder, program, second, options @ ..] => {
            programs(Path::new(folder), [program, second], options)
        }
        ["--help"] | ["-h"] => {
            print!("{HELP}");
            Ok(())
        }
        _ => {
            eprint!("{HELP}");
            return ExitCode::from(2);
        }
    };
    match result {
        Ok(()) => ExitCode::SUCCESS,
        Err(problem) => {
            eprintln!("bench: {problem}");
            ExitCode::FAILURE
        }
    }
}

/// Reads an option with a value, or gives the default.
fn option<'a>(options: &[&'a str], name: &str, default: &'a str) -> Result<&'a str, String> {
    for pair in options.chunks(2) {
        match *pair {
            [given, value] if given == name => return Ok(value),
            [_, _] => {}
            _ => return Err(format!("{} needs a value", pair[0])),
        }
    }
    Ok(default)
}

fn number(options: &[&str], name: &str, default: &str) -> Result<u32, String> {
    let text = option(options, name, default)?;
    let number = text.parse().ok().filter(|&number| number > 0);
    number.ok_or(format!("{name} needs a number above 0"))
}

/// The library under test, if it is linked.
fn linked() -> Option<Box<dyn Library>> {
    #[cfg(feature = "archive")]
    return Some(Box::new(libtest::ffi::Linked));
    #[cfg(not(feature = "archive"))]
    None
}

fn calls(options: &[&str]) -> Result<(), String> {
    let text = option(options, "--row", "")?;
    let batches = number(options, "--batches", "15")?;
    for load in Load::ALL {
        println!("### {}\n", capital(load.title()));
        println!("| call | library, ns | ordinary, ns | ratio |");
        println!("|---|---:|---:|---:|");
        for row in ROWS.into_iter().filter(|row| row.contains(text)) {
            let scene = scene::scene(row, load);
            let mut plain = Plain;
            let (library, ordinary) = match linked() {
                Some(mut linked) => {
                    let mut both: [&mut dyn Library; 2] = [linked.as_mut(), &mut plain];
                    let times = measure::nanoseconds(&scene, &mut both, batches);
                    (Some(times[0]), times[1])
                }
                None => {
                    let mut one: [&mut dyn Library; 1] = [&mut plain];
                    (None, measure::nanoseconds(&scene, &mut one, batches)[0])
                }
            };
            match library {
                Some(library) => println!(
                    "| {row} | {library:.0} | {ordinary:.0} | {:.2} |",
                    library / ordinary
                ),
                None => println!("| {row} | - | {ordinary:.0} | - |"),
            }
        }
        println!();
    }
    Ok(())
}

fn capital(text: &str) -> String {
    text[..1].to_uppercase() + &text[1..]
}

// The names of the next three functions are given to callgrind. The numbers in
// them keep the compiler from making one function of two.

/// Instructions are counted in here for the library.
#[no_mangle]
#[inline(never)]
pub fn bench_library_call(stage: &mut Stage, library: &mut dyn Library) -> usize {
    std::hint::black_box(1);
    stage.call(library)
}

/// Instructions are counted in here for the ordinary implementation.
#[no_mangle]
#[inline(never)]
pub fn bench_ordinary_call(stage: &mut Stage, library: &mut dyn Library) -> usize {
    std::hint::black_box(2);
    stage.call(library)
}

/// The count is written out and starts again from 0 at the end of this.
#[no_mangle]
#[inline(never)]
pub fn bench_row_end() {
    std::hint::black_box(3);
}

/// Makes a few calls of each row and load that is asked for. For each count
/// that callgrind writes out, a line says what it is and how many calls it is
/// for.
fn count(is_asked_for: impl Fn(&str, &str) -> bool) {
    type Counted = fn(&mut Stage, &mut dyn Library) -> usize;
    let counted = |scene: &Scene, side: &str, library: &mut dyn Library, call: Counted| {
        let mut stage = Stage::new(scene, library);
        for _ in 0..COUNTED_CALLS {
            stage.restore();
            call(&mut stage, library);
        }
        bench_row_end();
        let load = scene.load.name();
        println!("{side}\t{load}\t{}\t{COUNTED_CALLS}", scene.row);
    };
    for load in Load::ALL {
        for row in ROWS {
            if !is_asked_for(row, load.name()) {
                continue;
            }
            let scene = scene::scene(row, load);
            if let Some(mut linked) = linked() {
                counted(&scene, "library", linked.as_mut(), bench_library_call);
            }
            counted(&scene, "ordinary", &mut Plain, bench_ordinary_call);
        }
    }
}

/// The file of a script.
fn path_of(folder: &Path, name: &str) -> PathBuf {
    folder.join(format!("{name}.txt"))
}

fn write_scripts(folder: &Path) -> Result<(), String> {
    let write = |name: &str, bytes: &[u8]| {
        let path = path_of(folder, name);
        std::fs::write(&path, bytes).map_err(|error| format!("{}: {error}", path.display()))
    };
    std::fs::create_dir_all(folder).map_err(|error| format!("{}: {error}", folder.display()))?;
    write("empty", &[])?;
    for script in Script::ALL {
        let (bytes, calls) = script.write();
        write(script.name(), &bytes)?;
        let (name, title) = (script.name(), script.title());
        println!("{name}: {calls} calls, {} bytes; {title}", bytes.len());
    }
    Ok(())
}

fn programs(folder: &Path, programs: [&str; 2], options: &[&str]) -> Result<(), String> {
    let runs = number(options, "--runs", "20")?;
    let programs = programs.map(str::to_string);
    println!("| script | program, ms | second, ms | ratio |");
    println!("|---|---:|---:|---:|");
    for name in ["empty", Script::One.name(), Script::Full.name()] {
        let [first, second] = script::times(&programs, &path_of(folder, name), runs)?;
        let ratio = first.as_secs_f64() / second.as_secs_f64();
        let [first, second] = [first, second].map(|time| time.as_secs_f64() * 1e3);
        println!("| {name} | {first:.2} | {second:.2} | {ratio:.2} |");
    }
    Ok(())
}
