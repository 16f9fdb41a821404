//! Times the check on sound tables against one copy of the same tables, and looks for the least stack that it and the other calls run in, on sound
//! tables and on damaged ones.

use bench::lent::Bare;
use bench::{median, sheets};
use compare::nests;
use model::rules::audit;
use model::tables::{Kind, Tables};
use std::hint::black_box;
use std::process::{Command, Stdio};

fn time_check(tables: &Tables) -> f64 {
    let mut bare = Bare::of(tables);
    assert_eq!(bare.check(), 0);
    median(|| assert_eq!(black_box(&mut bare).check(), 0))
}

/// One copy of the five tables into others of the same lengths.
fn time_copy(tables: &Tables) -> f64 {
    let mut to = tables.clone();
    median(|| {
        let from = black_box(tables);
        to.words.copy_from_slice(&from.words);
        to.generations.copy_from_slice(&from.generations);
        for (to, from) in to.lists.iter_mut().zip(&from.lists) {
            to.copy_from_slice(from);
        }
        black_box(&mut to);
    })
}

fn made(name: &str, slots: u32) -> Tables {
    match name {
        "wide chain" => sheets::wide(slots),
        "random mix" => sheets::mixed(slots, 7),
        "deepest calls" => sheets::paired(slots),
        _ => sheets::deep(slots),
    }
}

const NAMES: [&str; 4] = ["wide chain", "random mix", "deepest nesting", "deepest calls"];

fn describe(name: &str, tables: &Tables) {
    let of = |kind| tables.live().iter().filter(|&&slot| tables.kind(slot) == kind).count();
    let bytes =
        4 * tables.words.len() + tables.generations.len() + 4 * tables.lists.iter().map(Vec::len).sum::<usize>();
    println!(
        "{name}, {} slots: {} Container, {} Alloc, {} Free, lists {:?}, {bytes} bytes",
        tables.room(),
        of(Kind::Container),
        of(Kind::Alloc),
        of(Kind::Free),
        tables.head.lengths
    );
}

/// The same tables with the longest list tables, each filled with repeats.
fn with_long_lists(mut tables: Tables) -> Tables {
    for (list, length) in tables.lists.iter_mut().zip(&mut tables.head.lengths) {
        let entries = (*length).max(1) as usize;
        *list = (0..16_384).map(|place| if *length == 0 { 0 } else { list[place % entries] }).collect();
        *length = 16_384;
    }
    tables
}

fn times() {
    println!("{:34}{:>10}{:>10}{:>9}{:>11}", "", "check µs", "copy µs", "ratio", "512 slots");
    let line = |label: &str, large: &Tables, small: &Tables| {
        let (check, copy, less) = (time_check(large), time_copy(large), time_check(small));
        println!("{label:34}{:10.2}{:10.2}{:9.2}{:10.2}x", check / 1e3, copy / 1e3, check / copy, check / less);
    };
    for name in NAMES {
        line(name, &made(name, 4_096), &made(name, 512));
    }
    for name in NAMES {
        let label = format!("{name}, lists of 16,384");
        line(&label, &with_long_lists(made(name, 4_096)), &with_long_lists(made(name, 512)));
    }
}

/// The calls that check the tables.
const CALLS: [&str; 8] =
    ["check", "allocate", "deallocate", "grow", "lookup", "list_allocated", "list_free", "is_empty"];

/// A call's answer. The ticket is that of the last slot that is Alloc, the generations being all 0; there is no room for what is asked of allocate.
fn answer(call: &str, tables: &Tables) -> u32 {
    let mut bare = Bare::of(tables);
    let ticket = (0..tables.head.count).rev().find(|&i| tables.slot(i).kind == Kind::Alloc).unwrap_or(0);
    let mut listed = vec![0; 5 * tables.room() as usize];
    let mut lent = bare.lend();
    match call {
        "allocate" => lent.allocate(i32::MAX, i32::MAX, &mut [0; 5]),
        "deallocate" => lent.deallocate(ticket),
        "grow" => lent.grow(tables.head.width, tables.head.height),
        "lookup" => lent.lookup(ticket, &mut [0; 4]),
        "list_allocated" => lent.list_allocated(&mut listed, &mut [0]),
        "list_free" => lent.list_free(&mut listed, &mut [0]),
        "is_empty" => lent.is_empty(&mut [0]),
        _ => lent.check(),
    }
}

/// The damaged tables of a name: one nest, or all that are drawn.
fn damaged(name: &str, slots: u32) -> Vec<Tables> {
    match nests::NESTS.iter().find(|nest| nest.0 == name) {
        Some((_, make)) => vec![make(slots)],
        None => (1..=DRAWS).map(|seed| nests::drawn(slots, seed)).collect(),
    }
}

const DRAWS: u64 = 1_000;
const DRAWN: &str = "drawn";

/// Makes the call on each of the tables, in a thread with this much stack; a thread that runs over it ends the process.
fn run_in(call: &'static str, stack: usize, name: &str, slots: u32) {
    let sound = NAMES.contains(&name);
    let tables = if sound { vec![made(name, slots)] } else { damaged(name, slots) };
    let run = move || tables.iter().map(|tables| answer(call, tables)).collect::<Vec<u32>>();
    let thread = std::thread::Builder::new().stack_size(stack);
    let answers = thread.spawn(run).expect("a thread").join().expect("answers");
    let done = |answer: u32| if sound { answer != 2 } else { answer == 2 };
    assert!(answers.into_iter().all(done), "{call}, {name}");
}

/// The least stack, to 1 KiB, of a thread that runs the call and nothing else.
fn least_stack(call: &str, name: &str, slots: u32) -> usize {
    let runs = |kib: usize| {
        let mut again = Command::new(std::env::current_exe().expect("the program"));
        again.args([call, &(kib * 1024).to_string(), name, &slots.to_string()]).stderr(Stdio::null());
        again.status().expect("a run").success()
    };
    let (mut less, mut enough) = (0, 8_192);
    assert!(runs(enough), "{call}, {name}");
    while enough - less > 1 {
        let half = (less + enough) / 2;
        if runs(half) {
            enough = half;
        } else {
            less = half;
        }
    }
    enough
}

/// How much stack each call takes, on the sound tables and on the damaged ones, and the most that any takes.
fn stacks() {
    let mut worst = (0, String::new());
    let mut line = |call: &str, name: &str, slots: u32| {
        let kib = least_stack(call, name, slots);
        let label = format!("{call} of {name}, {slots} slots");
        println!("{label:64}{kib:6} KiB of stack");
        worst = worst.clone().max((kib, label));
    };
    line("check", "deepest nesting", 1);
    for name in NAMES {
        line("check", name, 4_096);
        line("deallocate", name, 4_096);
    }
    for (name, _) in nests::NESTS {
        line("check", name, 4_096);
    }
    line("check", DRAWN, 4_096);
    for call in &CALLS[1..] {
        line(call, "pairs", 4_096);
        line(call, "deepest calls", 4_096);
    }
    println!("at most {} KiB, by {}", worst.0, worst.1);
}

fn main() {
    let words: Vec<String> = std::env::args().collect();
    if let [_, call, stack, name, slots] = &words[..] {
        let call = CALLS.into_iter().find(|known| known == call).expect("a call");
        return run_in(call, stack.parse().expect("bytes"), name, slots.parse().expect("slots"));
    }
    for slots in [512, 4_096] {
        for name in NAMES {
            let tables = made(name, slots);
            describe(name, &tables);
            let thread = std::thread::Builder::new().stack_size(64 << 20);
            let verdict = thread.spawn(move || audit(&tables)).expect("a thread").join().expect("a verdict");
            assert_eq!(verdict, (0, 0), "{name}, {slots} slots");
        }
    }
    times();
    stacks();
}
