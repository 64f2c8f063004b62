#!/usr/bin/env python3
"""Times one step of the session's replay, over lists of 10,000, 100,000 and 1,000,000 commands.

Each list puts one tab a step into one of a thousand windows, with ids that rise, fall or come at random; a last list
makes and closes a window by turns beside 100,000 tabs that stand in another. The replay runs in a small program that
this script makes in a copy of the crates and has proved and built by the kit. It prints nanoseconds a step.
"""
import shutil
import subprocess
import tempfile
from pathlib import Path

ROOT = Path(__file__).resolve().parent.parent
NAME = "replay_cost"
LISTS = ["rising", "falling", "random", "closing"]
STEPS = [10_000, 100_000, 1_000_000]

PROGRAM = """\
//! Replays a generated list of commands and prints the nanoseconds that it took.
#![tactic(auto)]

ghost use Rattle.session_commands.specs.Table.{IsSound};

use replay_machine::apply;
use session_commands::SessionCommand;
use std::alloc::{AllocError, Global};
use std::process::ExitCode;
use std::time::Instant;
use std::{env, io};
use window_state::SessionState;

const STANDING: i32 = 100_000;

fn main(rt: HostRuntime) -> ExitCode {
    match run(rt) {
        Ok(()) => ExitCode::SUCCESS,
        Err(_) => ExitCode::FAILURE,
    }
}

fn run(rt: HostRuntime) -> Result<(), io::Error> {
    let mut words = env::args(&rt)?.skip(1);
    let list = words.next();
    let steps = match words.next() {
        Some(word) => word.parse::<i32>().unwrap_or(0),
        None => 0,
    };
    let list = match list {
        Some(list) => list,
        None => return Ok(()),
    };
    let state = standing(rt.alloc(), list.as_str())?;
    let start = Instant::now(&rt)?;
    let state = replayed(state, list.as_str(), steps)?;
    let took = start.elapsed(&rt)?;
    println!(rt; "{} {}", took.as_nanos(), state.tabs().len())?;
    Ok(())
}

// The tabs that stand before the list begins.
fn standing(alloc: Global, list: &str) -> Result<SessionState, AllocError> {
    let mut state = SessionState::start(alloc)?;
    if list == "closing" {
        for tab in 0..STANDING {
            apply(&mut state, &SessionCommand::TabWindow { window: 0, tab })?;
        }
    }
    Ok(state)
}

fn replayed(state: SessionState, list: &str, steps: i32) -> Result<SessionState, AllocError> {
    let mut state = state;
    let mut seed: u64 = 7;
    for step in 0..steps {
        seed = seed.wrapping_mul(6364136223846793005).wrapping_add(1442695040888963407);
        apply(&mut state, &command_of(list, step, steps, seed))?;
    }
    Ok(state)
}

fn command_of(list: &str, step: i32, steps: i32, seed: u64) -> SessionCommand
    ensures { IsSound result }
{
    let window = step.wrapping_rem(1000).wrapping_add(1);
    if list == "rising" {
        return SessionCommand::TabWindow { window, tab: step };
    }
    if list == "falling" {
        return SessionCommand::TabWindow { window, tab: steps.wrapping_sub(step) };
    }
    if list == "random" {
        return SessionCommand::TabWindow { window, tab: i32::try_from(seed >> 33).unwrap_or(0) };
    }
    if step.wrapping_rem(2) == 0 {
        return SessionCommand::TabWindow { window: step.wrapping_add(1), tab: step.wrapping_add(STANDING) };
    }
    SessionCommand::WindowClosed { window: step, time: 0 }
}
"""


def build(copy):
    shutil.copytree(ROOT / "crates", copy / "crates", ignore=shutil.ignore_patterns("out", "must-fail"))
    shutil.copy(ROOT / "HANDLES", copy)
    crates = (ROOT / "crates.txt").read_text()
    (copy / "crates.txt").write_text(crates + f"{NAME}: pickle_cells navigation_entry session_commands window_state replay_machine\n")
    crate = copy / "crates" / NAME
    (crate / "src").mkdir(parents=True)
    (crate / "src" / "main.rt").write_text(PROGRAM)
    subprocess.run(["rt", "run"], cwd=crate, check=True, stdin=subprocess.DEVNULL, stdout=subprocess.DEVNULL)
    return crate / "out" / NAME


def nanoseconds(program, name, steps):
    done = subprocess.run([program, name, str(steps)], check=True, stdout=subprocess.PIPE)
    return int(done.stdout.split()[0]) / steps


if __name__ == "__main__":
    with tempfile.TemporaryDirectory() as folder:
        program = build(Path(folder))
        print("ns a step " + "".join(f"{steps:>12,}" for steps in STEPS))
        for name in LISTS:
            # The least of three runs, since other work on the machine only adds time.
            times = [min(nanoseconds(program, name, steps) for _ in range(3)) for steps in STEPS]
            print(f"{name:<10}" + "".join(f"{time:>12.0f}" for time in times))
