//! Random inputs for the walk and peaks programs: `inputs DIRECTORY SEED COUNT`
//! writes, for each of COUNT seeds from SEED on, the input to
//! DIRECTORY/SEED.input and what the programs over `plain` print for it to
//! DIRECTORY/SEED.output and DIRECTORY/SEED.peaks. With a fourth word `damaged`
//! the inputs are for `damaged_calls`, and SEED.output is what that prints.
//! `fast` must print the same. Then it prints how often the calls met each
//! branch, a line a branch: the count, the group, a colon and the name.

use reference::counts::Counts;
use reference::walk::{each_event, Event, Lines, Program};
use reference::{damaged, fast, inputs, Store};
use std::{env, fs, io};

/// What one program prints; its file's name ends like this.
struct Output {
    program: Program,
    end: &'static str,
    lines: Lines,
    text: String,
}

/// The programs that read one input.
fn outputs(damages: bool) -> Vec<Output> {
    let programs = match damages {
        true => vec![(Program::DamagedCalls, "output")],
        false => vec![(Program::Walk, "output"), (Program::Peaks, "peaks")],
    };
    let output = |(program, end)| Output {
        program,
        end,
        lines: Lines::default(),
        text: String::new(),
    };
    programs.into_iter().map(output).collect()
}

fn add(outputs: &mut [Output], event: Event) -> io::Result<()> {
    for output in outputs {
        output.text += &output.lines.of(output.program, &event);
    }
    Ok(())
}

fn main() -> io::Result<()> {
    let words: Vec<String> = env::args().skip(1).collect();
    let damages = words.get(3).is_some_and(|word| word == "damaged");
    let [directory, seed, count] = &words[..words.len() - usize::from(damages)] else {
        eprintln!("usage: inputs DIRECTORY SEED COUNT [damaged]");
        std::process::exit(2);
    };
    let seed: u64 = seed.parse().expect("a seed");
    let count: u64 = count.parse().expect("a count");
    let mut counts = Counts::new(damages);
    for seed in (0..count).map(|at| seed.wrapping_add(at)) {
        let input = match damages {
            true => damaged::input(seed),
            false => inputs::input(seed),
        };
        let (mut told, mut again) = (outputs(damages), outputs(damages));
        counts.run(&input, |event| add(&mut told, event))?;
        each_event(damages, &input[..], fast::State::call, |event| {
            add(&mut again, event)
        })?;
        fs::write(format!("{directory}/{seed}.input"), input)?;
        for (Output { end, text, .. }, again) in told.iter().zip(again) {
            assert!(*text == again.text, "the builds differ: seed {seed}");
            fs::write(format!("{directory}/{seed}.{end}"), text)?;
        }
    }
    for ((group, name), count) in counts.all() {
        println!("{count} {group}: {name}");
    }
    Ok(())
}
