//! feeders PROGRAM [SEED]: runs the program `feeders` on many plan files of both
//! versions and lists of pairs, sound and damaged, and holds what it prints byte for
//! byte to model.rs. Run from the repository's root, where plans/ is; it writes its
//! files to target/checks/. One seed always gives the same files. Exit status 0 when
//! all agree and, in both versions, every number came, and answers with every pair in
//! order and with one upside down came often.

// The other checks use the rest.
#[allow(dead_code)]
mod model;
#[allow(dead_code)]
mod plans;
#[allow(dead_code)]
mod program;

use plans::{damaged_file, layout, loaded_plan, name_all, random_plan, sound_file, Random};
use program::{arguments, coverage, cut, cuts, hex, lengths, sample_files, Parts, Program, Run};
use std::fs;
use std::process::exit;

const PLAN: &str = "target/checks/feeders.plan";
const PAIRS: &str = "target/checks/feeders.pairs";
const LIST_MAX: usize = 240;

/// Of answers with every pair in order, and with one upside down, at least so many are to come.
const OFTEN: u64 = 300;

// Comparison.

/// The files that were made in one version.
struct Comparison<'a> {
    program: &'a Program,
    version: u64,
    seed: u64,
    calls: u64,
    times: [u64; 63],
    in_order: u64,
    upside_down: u64,
}

/// The number that an output tells.
fn number_of(output: &str) -> usize {
    let mut words = output.split_ascii_whitespace();
    match words.next() {
        Some("refused") => words.next().and_then(|number| number.parse().ok()).expect("a number"),
        _ => 0,
    }
}

impl Comparison<'_> {
    fn new(program: &Program, version: u64, seed: u64) -> Comparison<'_> {
        Comparison { program, version, seed, calls: 0, times: [0; 63], in_order: 0, upside_down: 0 }
    }

    fn fail(&self, what: &str, file: &[u8], list: &[u8], wanted: &str, run: Option<&Run>) -> ! {
        println!("feeders: {what} (version {}, seed {}, call {})", self.version, self.seed, self.calls);
        println!("plan of {} bytes: {}", file.len(), hex(file));
        println!("list of {} bytes: {}", list.len(), hex(list));
        if let Some(run) = run {
            println!("exit status: {:?}", run.status);
            println!("standard error: {}", String::from_utf8_lossy(&run.errors));
            println!("standard output:\n{}", String::from_utf8_lossy(&run.output));
        }
        println!("wanted:\n{wanted}");
        exit(1)
    }

    fn run(&mut self, paths: [&str; 2], parts: Parts, file: &[u8], list: &[u8]) {
        let wanted = model::feeders(file, list);
        self.calls += 1;
        let Some(run) = self.program.run_with(&paths, parts) else {
            self.fail("the program is not done in time", file, list, &wanted, None);
        };
        let held = [
            ("the exit status is not 0", run.status == Some(0)),
            ("there is something on standard error", run.errors.is_empty()),
            ("the output differs", run.output == wanted.as_bytes()),
        ];
        for (what, holds) in held {
            if !holds {
                self.fail(what, file, list, &wanted, Some(&run));
            }
        }
        let number = number_of(&wanted);
        self.times[number] += 1;
        if number == 0 {
            let in_order = wanted.ends_with("pair 0\n");
            self.in_order += u64::from(in_order);
            self.upside_down += u64::from(!in_order);
        }
    }

    /// Both from files.
    fn call(&mut self, file: &[u8], list: &[u8]) {
        fs::write(PLAN, file).expect("write to target/checks/");
        fs::write(PAIRS, list).expect("write to target/checks/");
        self.run([PLAN, PAIRS], Vec::new(), file, list);
    }

    /// The plan from standard input, part by part.
    fn plan_in_parts(&mut self, parts: Parts, list: &[u8]) {
        fs::write(PAIRS, list).expect("write to target/checks/");
        let file = parts.concat();
        self.run(["/dev/stdin", PAIRS], parts, &file, list);
    }

    /// The list from standard input, part by part.
    fn list_in_parts(&mut self, file: &[u8], parts: Parts) {
        fs::write(PLAN, file).expect("write to target/checks/");
        let list = parts.concat();
        self.run([PLAN, "/dev/stdin"], parts, file, &list);
    }
}

// Lists of pairs.

fn flat(pairs: &[(u8, u8)]) -> Vec<u8> {
    pairs.iter().flat_map(|&(feeder, reader)| [feeder, reader]).collect()
}

fn shuffle<T>(random: &mut Random, items: &mut [T]) {
    for i in (1..items.len()).rev() {
        items.swap(i, random.index(i + 1));
    }
}

/// The jobs of a plan in any order, of which each feeds the next; and the last one the
/// first, if the chain is closed.
fn chain(random: &mut Random, n: usize, closed: bool) -> Vec<(u8, u8)> {
    let mut jobs: Vec<_> = (1..=n as u8).collect();
    shuffle(random, &mut jobs);
    let mut pairs: Vec<_> = jobs.windows(2).map(|pair| (pair[0], pair[1])).collect();
    if closed {
        pairs.push((jobs[n - 1], jobs[0]));
    }
    shuffle(random, &mut pairs);
    pairs
}

/// Pairs that go down the table only.
fn ordered(random: &mut Random, n: usize) -> Vec<(u8, u8)> {
    let most = random.of(&[2, 6, 20, 120]);
    let count = random.within(0, most);
    let pair = |random: &mut Random| {
        let reader = random.within(2, n as u64);
        (random.within(1, reader - 1) as u8, reader as u8)
    };
    (0..if n == 1 { 0 } else { count }).map(|_| pair(random)).collect()
}

/// Any pairs, a few or many.
fn scattered(random: &mut Random, n: usize) -> Vec<(u8, u8)> {
    let most = random.of(&[1, 4, 8, 16, 30, 120]);
    let count = random.within(0, most);
    let job = |random: &mut Random| random.within(1, n as u64) as u8;
    (0..count).map(|_| (job(random), job(random))).collect()
}

/// A list that passes its rules.
fn sound_list(random: &mut Random, n: usize) -> Vec<u8> {
    let mut pairs = match random.index(6) {
        0 => chain(random, n, false),
        1 => chain(random, n, true),
        2 | 3 => ordered(random, n),
        _ => scattered(random, n),
    };
    if !pairs.is_empty() && random.chance(4) {
        let again = pairs[random.index(pairs.len())];
        let at = random.index(pairs.len() + 1);
        pairs.insert(at, again);
    }
    pairs.truncate(LIST_MAX / 2);
    flat(&pairs)
}

/// A sound list with a byte more or less, a number that may be no job's, or too long.
fn damaged_list(random: &mut Random, n: usize) -> Vec<u8> {
    let mut list = sound_list(random, n);
    for _ in 0..random.within(1, 2) {
        let at = random.index(list.len() + 1);
        match random.index(6) {
            0 => list.insert(at, random.within(0, n as u64 + 1) as u8),
            1 => list.truncate(list.len().saturating_sub(1)),
            2 => list.resize(random.of(&[LIST_MAX - 1, LIST_MAX, LIST_MAX + 1, LIST_MAX + 2, 1_000]), 1),
            _ if at == list.len() => list.push(random.of(&[0, 1, n as u8 + 1, 255])),
            _ => list[at] = random.of(&[0, n as u8, n as u8 + 1, 17, 128, 255]),
        }
    }
    list
}

// Calls.

/// A plan file of n jobs.
fn sound_plan(random: &mut Random, version: u64, n: usize) -> Vec<u8> {
    let mut tasks = loaded_plan(random, n as u64, 70, false);
    name_all(random, &mut tasks);
    let layout = layout(random, version, n);
    plans::encode(&tasks, &layout)
}

fn sound_calls(comparison: &mut Comparison, random: &mut Random, count: u64) {
    for _ in 0..count {
        let n = random.within(1, 16) as usize;
        let file = sound_plan(random, comparison.version, n);
        let list = sound_list(random, n);
        comparison.call(&file, &list);
    }
}

fn damaged_calls(comparison: &mut Comparison, random: &mut Random, count: u64) {
    for _ in 0..count {
        let n = random.within(1, 16) as usize;
        let file = sound_plan(random, comparison.version, n);
        let list = damaged_list(random, n);
        comparison.call(&file, &list);
    }
}

/// A plan whose own rules may refuse it, before those of the list.
fn damaged_plans(comparison: &mut Comparison, random: &mut Random, count: u64) {
    for _ in 0..count {
        let file = damaged_file(random, comparison.version);
        let list = if random.chance(2) { sound_list(random, 2) } else { damaged_list(random, 16) };
        comparison.call(&file, &list);
    }
}

/// Job numbers about the limits, as feeder and as reader, in a plan of n jobs.
fn numbers(comparison: &mut Comparison, random: &mut Random, n: usize) {
    let file = sound_plan(random, comparison.version, n);
    for number in [0, 1, n as u8, n as u8 + 1, 16, 17, 127, 128, 254, 255] {
        comparison.call(&file, &[number, 1]);
        comparison.call(&file, &[1, number]);
        comparison.call(&file, &[1, 1, 1, number, 0, 0]);
    }
}

/// Lists of every length about the limits, and plan files of such lengths.
fn limits(comparison: &mut Comparison, random: &mut Random) {
    let file = sound_plan(random, comparison.version, 16);
    for length in (0..=6).chain(236..=246).chain([480, 65_536]) {
        comparison.call(&file, &vec![1; length]);
    }
    for file in lengths() {
        comparison.call(&file, &[1, 1]);
    }
}

/// A pipe delivers the plan or the list in parts.
fn in_parts(comparison: &mut Comparison, random: &mut Random) {
    for file in sample_files(comparison.version) {
        let list = sound_list(random, 2);
        cuts(&file).into_iter().for_each(|parts| comparison.plan_in_parts(parts, &list));
    }
    let file = sound_plan(random, comparison.version, 16);
    let mut list = flat(&chain(random, 16, true));
    list.resize(LIST_MAX, 3);
    for at in [0, 1, 2, 3, 119, 238, 239, 240] {
        comparison.list_in_parts(&file, cut(&list, at));
    }
    list.push(3);
    for at in [1, 239, 240, 241] {
        comparison.list_in_parts(&file, cut(&list, at));
    }
    comparison.list_in_parts(&file, list[..24].iter().map(|&byte| vec![byte]).collect());
}

fn version<'a>(program: &'a Program, version: u64, seed: u64, random: &mut Random) -> Comparison<'a> {
    let mut comparison = Comparison::new(program, version, seed);
    for n in [1, 2, 9, 16] {
        numbers(&mut comparison, random, n);
    }
    limits(&mut comparison, random);
    in_parts(&mut comparison, random);
    for _ in 0..100 {
        let tasks = random_plan(random);
        let file = sound_file(random, version, &tasks);
        let list = sound_list(random, tasks.len());
        comparison.call(&file, &list);
    }
    sound_calls(&mut comparison, random, 1_200);
    damaged_calls(&mut comparison, random, 500);
    damaged_plans(&mut comparison, random, 600);
    comparison
}

/// The model on the request's own words.
fn example() {
    let plan = fs::read("plans/P.plan").expect("plans/P.plan");
    assert_eq!(model::feeders(&plan, &[1, 2]), "gauge 0\nradio 1\npair 0\n");
    assert_eq!(model::feeders(&plan, &[2, 1, 2, 1]), "gauge 1\nradio 0\npair 1\n");
    assert_eq!(model::feeders(&plan, &[1, 2, 2, 1]), "gauge 2\nradio 2\npair 2\n");
    assert_eq!(model::feeders(&plan, &[1, 2, 0, 1]), "refused 62 2\n");
}

fn main() {
    let (program, seed) = arguments("feeders");
    let mut random = Random(seed);
    example();
    let one = version(&program, 1, seed, &mut random);
    let two = version(&program, 2, seed, &mut random);
    let mut complete = true;
    for comparison in [&one, &two] {
        let Comparison { version, in_order, upside_down, .. } = comparison;
        complete &= coverage(*version, &comparison.times, (0..=11).chain([61, 62]));
        println!("version {version}: {in_order} answers with every pair in order, {upside_down} with one upside down");
        complete &= *in_order >= OFTEN && *upside_down >= OFTEN;
    }
    println!("{} calls in version 1, {} in version 2, seed {seed}: all as the model says", one.calls, two.calls);
    if !complete {
        exit(1);
    }
}
