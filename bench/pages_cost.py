#!/usr/bin/env python3
"""Times changes of one tab's pages, n commands at n pages, for n of 50,000, 100,000 and 200,000.

The first three lists put n pages into a tab that has none, by rising indices, by falling ones or at random. The others
begin with n pages and prune and put in by turns, so that the number of pages stays; the last one prunes behind them
all. They run in a small program that this script makes in a copy of the crates and has proved and built by the kit. It
prints milliseconds for each list, and by which factor the time grows from the least n to the greatest.
"""
import shutil
import subprocess
import tempfile
from pathlib import Path

ROOT = Path(__file__).resolve().parent.parent
NAME = "pages_cost"
LISTS = {
    "rising": "appends",
    "falling": "falling indices",
    "random": "random indices",
    "first": "Pruned(0, 1) and append",
    "middle": "Pruned(n / 2, 1) and append",
    "front": "PrunedFront(1) and append",
    "back": "PrunedBack(n - 1) and append",
    "beyond": "PrunedBack(n)",
}
COUNTS = [50_000, 100_000, 200_000]

PROGRAM = """\
//! Makes a generated list of changes of a tab's pages and prints the nanoseconds that it took.
#![tactic(auto)]

use navigation_entry::Navigation;
use pickle_cells::{Blob, Text16};
use std::alloc::{AllocError, Global};
use std::process::ExitCode;
use std::time::Instant;
use std::{env, io};
use tab_pages::Pages;

fn main(rt: HostRuntime) -> ExitCode {
    match run(rt) {
        Ok(()) => ExitCode::SUCCESS,
        Err(_) => ExitCode::FAILURE,
    }
}

fn run(rt: HostRuntime) -> Result<(), io::Error> {
    let mut words = env::args(&rt)?.skip(1);
    let list = words.next();
    let count = match words.next() {
        Some(word) => word.parse::<i32>().unwrap_or(0),
        None => 0,
    };
    let list = match list {
        Some(list) => list,
        None => return Ok(()),
    };
    let mut pages = standing(rt.alloc(), list.as_str(), count)?;
    let start = Instant::now(&rt)?;
    change(rt.alloc(), &mut pages, list.as_str(), count)?;
    let took = start.elapsed(&rt)?;
    println!(rt; "{} {}", took.as_nanos(), pages.len())?;
    Ok(())
}

// The pages that stand before the list begins.
fn standing(alloc: Global, list: &str, count: i32) -> Result<Pages, AllocError> {
    let mut pages = Pages::new(alloc);
    if is_of_puts(list) {
        return Ok(pages);
    }
    for index in 0..count {
        put(alloc, &mut pages, index)?;
    }
    Ok(pages)
}

fn is_of_puts(list: &str) -> bool {
    list == "rising" || list == "falling" || list == "random"
}

fn change(alloc: Global, pages: &mut Pages, list: &str, count: i32) -> Result<(), AllocError> {
    let mut seed: u64 = 7;
    for step in 0..count {
        seed = seed.wrapping_mul(6364136223846793005).wrapping_add(1442695040888963407);
        if is_of_puts(list) {
            put(alloc, pages, index_of(list, step, count, seed))?;
        } else if list != "beyond" && step.wrapping_rem(2) == 1 {
            put(alloc, pages, count.wrapping_sub(1))?;
        } else {
            prune(pages, list, count);
        }
    }
    Ok(())
}

fn index_of(list: &str, step: i32, count: i32, seed: u64) -> i32 {
    if list == "rising" {
        return step;
    }
    if list == "falling" {
        return count.wrapping_sub(step);
    }
    i32::try_from(seed >> 33).unwrap_or(0)
}

fn prune(pages: &mut Pages, list: &str, count: i32) {
    if list == "first" {
        pages.prune(0, 1);
    } else if list == "middle" {
        pages.prune(count / 2, 1);
    } else if list == "front" {
        pages.prune_front(1);
    } else if list == "back" {
        pages.prune_back(count.wrapping_sub(1));
    } else {
        pages.prune_back(count);
    }
}

fn put(alloc: Global, pages: &mut Pages, index: i32) -> Result<(), AllocError> {
    if index < 0 {
        return Ok(());
    }
    pages.put(index, page(alloc)?)
}

fn page(alloc: Global) -> Result<Navigation, AllocError> {
    let url = Blob::from_slice(alloc, &[])?;
    let title = Text16::from_text(alloc, "")?;
    let page_state = Blob::from_slice(alloc, &[])?;
    let rest = Blob::from_slice(alloc, &[])?;
    Ok(Navigation::fitted(url, title, page_state, 0, rest))
}
"""


def build(copy):
    shutil.copytree(ROOT / "crates", copy / "crates", ignore=shutil.ignore_patterns("out", "must-fail"))
    shutil.copy(ROOT / "HANDLES", copy)
    crates = (ROOT / "crates.txt").read_text()
    (copy / "crates.txt").write_text(crates + f"{NAME}: pickle_cells navigation_entry tab_pages\n")
    crate = copy / "crates" / NAME
    (crate / "src").mkdir(parents=True)
    (crate / "src" / "main.rt").write_text(PROGRAM)
    subprocess.run(["rt", "run"], cwd=crate, check=True, stdin=subprocess.DEVNULL, stdout=subprocess.DEVNULL)
    return crate / "out" / NAME


def milliseconds(program, name, count):
    done = subprocess.run([program, name, str(count)], check=True, stdout=subprocess.PIPE)
    return int(done.stdout.split()[0]) / 1_000_000


if __name__ == "__main__":
    with tempfile.TemporaryDirectory() as folder:
        program = build(Path(folder))
        print(f"{'ms for n commands':<30}" + "".join(f"{count:>10,}" for count in COUNTS) + "    growth")
        for name, title in LISTS.items():
            # The least of three runs, since other work on the machine only adds time.
            times = [min(milliseconds(program, name, count) for _ in range(3)) for count in COUNTS]
            growth = times[-1] / times[0]
            print(f"{title:<30}" + "".join(f"{time:>10.1f}" for time in times) + f"{growth:>10.1f}")
