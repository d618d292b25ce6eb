//! listing PROGRAM [SEED]: runs the program `timetable` on many plan files of both
//! versions, sound and damaged, and holds what it prints byte for byte to the listing
//! of model.rs. Run from the repository's root, where plans/ is. One seed always gives
//! the same files. Exit status 0 when all agree and every number came in both versions.

// The other checks use the rest.
#[allow(dead_code)]
mod model;
mod plans;
mod program;

use model::{Task, TICK_MAX, WEIGHT_MAX};
use plans::{
    damaged_file, dearest_plan, delayed, encode, extreme_plan, filled, infeasible_plan, infeasible_plan_2,
    latest_plan, limit_files, loaded_plan, named, random_plan, small_plan, sound_file, tight, version_traps, Layout,
    Random, FILE_MAX,
};
use program::{
    arguments, byte_by_byte, coverage, cut, cuts, hex, lengths, long_cuts, sample_files, Parts, Program, Run,
};
use std::process::exit;

/// The program's budget is fixed, so long searches are sorted out beforehand.
const FEW_ROUNDS: u64 = 200;

// Comparison.

/// The files that were made in one version.
struct Comparison<'a> {
    program: &'a Program,
    version: u64,
    seed: u64,
    files: u64,
    times: [u64; 35],
}

/// The number that a listing tells.
fn number_of(listing: &str) -> usize {
    let mut words = listing.split_ascii_whitespace();
    match (words.next(), words.next()) {
        (Some("cost"), _) => 0,
        (Some("refused"), Some(number)) => number.parse().expect("a number"),
        _ => panic!("the model's listing: {listing}"),
    }
}

impl Comparison<'_> {
    fn new(program: &Program, version: u64, seed: u64) -> Comparison<'_> {
        Comparison { program, version, seed, files: 0, times: [0; 35] }
    }

    fn fail(&self, what: &str, file: &[u8], wanted: &str, run: Option<&Run>) -> ! {
        println!("listing: {what} (version {}, seed {}, file {})", self.version, self.seed, self.files);
        println!("file of {} bytes: {}", file.len(), hex(file));
        if let Some(run) = run {
            println!("exit status: {:?}", run.status);
            println!("standard error: {}", String::from_utf8_lossy(&run.errors));
            println!("standard output:\n{}", String::from_utf8_lossy(&run.output));
        }
        println!("wanted:\n{wanted}");
        exit(1)
    }

    fn parts(&mut self, parts: Parts) {
        let file = parts.concat();
        let wanted = model::listing(&file);
        self.files += 1;
        let Some(run) = self.program.run(parts) else {
            self.fail("the program is not done in time", &file, &wanted, None);
        };
        let held = [
            ("the exit status is not 0", run.status == Some(0)),
            ("there is something on standard error", run.errors.is_empty()),
            ("the listing differs", run.output == wanted.as_bytes()),
        ];
        for (what, holds) in held {
            if !holds {
                self.fail(what, &file, &wanted, Some(&run));
            }
        }
        self.times[number_of(&wanted)] += 1;
    }

    fn file(&mut self, file: &[u8]) {
        self.parts(vec![file.to_vec()]);
    }
}

// Files.

/// A file that needs few rounds.
fn brief(random: &mut Random, make: impl Fn(&mut Random) -> Vec<u8>) -> Vec<u8> {
    loop {
        let file = make(random);
        if model::desk(&file, FEW_ROUNDS).number != 33 {
            return file;
        }
    }
}

fn files(comparison: &mut Comparison, random: &mut Random, count: u64, make: impl Fn(&mut Random) -> Vec<u8>) {
    for _ in 0..count {
        let file = brief(random, &make);
        comparison.file(&file);
    }
}

fn sound_files(
    comparison: &mut Comparison,
    random: &mut Random,
    count: u64,
    plan: impl Fn(&mut Random) -> Vec<Task>,
) {
    let version = comparison.version;
    files(comparison, random, count, |random| {
        let tasks = plan(random);
        sound_file(random, version, &tasks)
    });
}

fn damaged_files(comparison: &mut Comparison, random: &mut Random, count: u64) {
    let version = comparison.version;
    files(comparison, random, count, |random| damaged_file(random, version));
}

/// One assignment only, with periods, times and costs of any number of digits.
/// The shortest period comes first, so that most of these plans are answered.
fn fixed_plan(random: &mut Random) -> Vec<Task> {
    let n = random.within(1, 16);
    let mut rows: Vec<_> = (0..n)
        .map(|_| {
            let most = random.of(&[9, 99, 999, 9_999, 99_999, 999_999, TICK_MAX]);
            let period = random.within(most / 10 + 1, most);
            let wcet = random.within(1, (period / n).max(1));
            let weight_most = random.of(&[1, 10, 100, WEIGHT_MAX]);
            (wcet, period, period, TICK_MAX, random.within(0, weight_most))
        })
        .collect();
    rows.sort_by_key(|row| row.1);
    named(&rows)
}

/// The model against the listings that docs/FORMAT.md gives whole, and others by hand.
fn examples() {
    let mut tasks = named(&[(1, 1, 6, 1_000, 1), (2, 1, 8, 1_000, 1)]);
    tasks[0].name[..5].copy_from_slice(b"gauge");
    tasks[1].name[..5].copy_from_slice(b"radio");
    assert_eq!(model::listing(&encode(&tasks, &tight(1, 2))), "cost 6 rounds 4\ngauge 2 1\nradio 4 4\n");
    assert_eq!(model::listing(&encode(&tasks, &tight(2, 2))), "cost 6 rounds 4\ngauge 2 1\nradio 4 4\n");
    let stop = model::search(&tasks, 3, model::WORK_SPACE);
    assert_eq!(model::listing_of(&tasks, &stop), "refused 33 0 bound 6 rounds 3 best 6\n");
    let s = std::fs::read("plans/S.plan").expect("plans/S.plan");
    assert_eq!(model::listing(&s), "refused 34 0 bound 1448 rounds 13870 best 4877\n");
    let tasks = filled(tasks, &[(0, 0), (1, 0)]);
    assert_eq!(model::listing(&encode(&tasks, &tight(2, 2))), "cost 8 rounds 5\ngauge 2 1\nradio 6 6\n");
    // The gauge's time has its jitter in it.
    let tasks = filled(tasks, &[(0, 3), (1, 0)]);
    assert_eq!(model::listing(&encode(&tasks, &tight(2, 2))), "cost 9 rounds 3\ngauge 4 4\nradio 5 5\n");
}

/// The tasks with names of sixteen letters.
fn with_long_names(mut tasks: Vec<Task>) -> Vec<Task> {
    for (i, task) in tasks.iter_mut().enumerate() {
        task.name = *b"sixteen-letters-";
        task.name[15] = b'A' + i as u8;
    }
    tasks
}

/// The first tasks of plan S with a weight on the first only: the order is then that of
/// the first period, the second and so on, and few nodes are open at a time.
fn first_weighed(n: u64) -> Vec<Task> {
    let rows: Vec<_> = (0..n).map(|i| (20 + 10 * i, 1, 1_000, 1_000, if i == 0 { 1_000 } else { 0 })).collect();
    named(&rows)
}

/// The longest listing, a search that spends the whole budget, and a search that
/// fills the work space.
fn chosen_plans(comparison: &mut Comparison, random: &mut Random) {
    let dearest = with_long_names(dearest_plan());
    comparison.file(&encode(&dearest, &tight(1, 16)));
    comparison.file(&encode(&dearest, &Layout { version: 1, rows: FILE_MAX - 320, names: 16, total: FILE_MAX }));
    comparison.file(&encode(&first_weighed(6), &tight(1, 6)));
    let overfull = loaded_plan(random, 16, 70, true);
    comparison.file(&sound_file(random, 1, &overfull));
}

/// The same in version 2, with blocking and jitter.
fn chosen_plans_2(comparison: &mut Comparison, random: &mut Random) {
    let latest = with_long_names(latest_plan());
    comparison.file(&encode(&latest, &tight(2, 16)));
    comparison.file(&encode(&latest, &Layout { version: 2, rows: FILE_MAX - 448, names: 16, total: FILE_MAX }));
    comparison.file(&encode(&filled(first_weighed(5), &[(30, 7), (20, 3)]), &tight(2, 5)));
    let mut overfull = loaded_plan(random, 16, 70, true);
    overfull.iter_mut().take(8).for_each(|task| (task.blocking, task.jitter) = (3, 2));
    comparison.file(&sound_file(random, 2, &overfull));
}

/// Inputs that a pipe delivers in parts. Of the sample plans only those with a
/// short search: each is run several times.
fn in_parts(comparison: &mut Comparison, random: &mut Random, samples: &[Vec<u8>]) {
    for file in samples.iter().filter(|file| model::desk(file, 1_000).number != 33) {
        cuts(file).into_iter().for_each(|parts| comparison.parts(parts));
    }
    long_cuts().into_iter().for_each(|parts| comparison.parts(parts));
    for _ in 0..40 {
        let file = brief(random, |random| damaged_file(random, comparison.version));
        comparison.parts(cut(&file, random.index(file.len() + 1)));
    }
    comparison.parts(byte_by_byte());
}

fn version_1<'a>(program: &'a Program, seed: u64, random: &mut Random) -> Comparison<'a> {
    let mut comparison = Comparison::new(program, 1, seed);
    let samples = sample_files(1);
    samples.iter().for_each(|file| comparison.file(file));
    lengths().iter().for_each(|file| comparison.file(file));
    chosen_plans(&mut comparison, random);
    in_parts(&mut comparison, random, &samples);
    sound_files(&mut comparison, random, 900, small_plan);
    sound_files(&mut comparison, random, 300, fixed_plan);
    sound_files(&mut comparison, random, 100, infeasible_plan);
    sound_files(&mut comparison, random, 50, extreme_plan);
    sound_files(&mut comparison, random, 150, random_plan);
    damaged_files(&mut comparison, random, 1_400);
    comparison
}

fn version_2<'a>(program: &'a Program, seed: u64, random: &mut Random) -> Comparison<'a> {
    let mut comparison = Comparison::new(program, 2, seed);
    for file in sample_files(2) {
        cuts(&file).into_iter().for_each(|parts| comparison.parts(parts));
    }
    chosen_plans_2(&mut comparison, random);
    for file in limit_files(2).iter().chain(&version_traps(2, &[0, 16], &[1, 2])) {
        comparison.file(file);
    }
    sound_files(&mut comparison, random, 50, small_plan);
    sound_files(&mut comparison, random, 450, delayed(small_plan));
    sound_files(&mut comparison, random, 150, delayed(fixed_plan));
    sound_files(&mut comparison, random, 100, infeasible_plan_2);
    sound_files(&mut comparison, random, 50, delayed(extreme_plan));
    sound_files(&mut comparison, random, 150, delayed(random_plan));
    damaged_files(&mut comparison, random, 700);
    comparison
}

fn main() {
    let (program, seed) = arguments("listing");
    let mut random = Random(seed);
    examples();
    let one = version_1(&program, seed, &mut random);
    let two = version_2(&program, seed, &mut random);
    let covers = |comparison: &Comparison| coverage(comparison.version, &comparison.times, (0..=11).chain(31..=34));
    let complete = covers(&one) & covers(&two);
    println!("{} files made in version 1, {} in version 2, seed {seed}: all as the model says", one.files, two.files);
    if !complete {
        exit(1);
    }
}
