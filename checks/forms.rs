//! forms PROGRAM [SEED]: runs the program `planform` on many plan files of both
//! versions, sound and damaged, and holds what it prints byte for byte to the form of
//! model.rs. What it wrote it must write again unchanged, and of two files it must
//! write the same exactly where both are accepted and hold the same plan. Run from the
//! repository's root, where plans/ is. One seed always gives the same files. Exit
//! status 0 when all agree and, in both versions, every number came and equal and
//! different plans came often.

// The other checks use the rest.
#[allow(dead_code)]
mod model;
mod plans;
mod program;

use model::{Task, TICK_MAX, WEIGHT_MAX};
use plans::{
    damaged_file, dearest_plan, delayed, encode, extreme_plan, filled, infeasible_plan, infeasible_plan_2,
    latest_plan, layout, layouts, limit_files, loaded_plan, name_all, named, random_plan, small_plan, sound_file,
    tight, version_traps, Layout, Random, FILE_MAX,
};
use program::{
    arguments, byte_by_byte, coverage, cut, cuts, hex, lengths, long_cuts, sample_files, Parts, Program, Run,
};
use std::process::exit;

/// Of pairs of one plan, and of two, at least so many are to come.
const EQUAL_LEAST: u64 = 500;
const DIFFERENT_LEAST: u64 = 1_000;

// Comparison.

/// The files that were made in one version, but for pairs of both.
struct Comparison<'a> {
    program: &'a Program,
    version: u64,
    seed: u64,
    files: u64,
    times: [u64; 12],
    equal: u64,
    different: u64,
    /// Whether most pairs of each change were of two accepted files.
    mostly_accepted: bool,
}

/// A file, its plan as the model reads it and its form as the program wrote it:
/// neither, where the file is refused.
struct Held {
    file: Vec<u8>,
    plan: Option<Vec<Task>>,
    form: Option<Vec<u8>>,
}

/// What the program is to write to standard output and to standard error.
fn wanted(file: &[u8]) -> (Vec<u8>, String) {
    match model::planform(file) {
        Ok(form) => (form, String::new()),
        Err(refusal) => (Vec::new(), model::refusal_line(refusal)),
    }
}

impl Comparison<'_> {
    fn new(program: &Program, version: u64, seed: u64) -> Comparison<'_> {
        Comparison { program, version, seed, files: 0, times: [0; 12], equal: 0, different: 0, mostly_accepted: true }
    }

    fn fail(&self, what: &str, file: &[u8], run: Option<&Run>) -> ! {
        println!("forms: {what} (version {}, seed {}, file {})", self.version, self.seed, self.files);
        println!("file of {} bytes: {}", file.len(), hex(file));
        if let Some(run) = run {
            println!("exit status: {:?}", run.status);
            println!("standard error: {}", String::from_utf8_lossy(&run.errors));
            println!("standard output: {}", hex(&run.output));
        }
        let (output, errors) = wanted(file);
        println!("wanted on standard error: {errors}");
        println!("wanted on standard output: {}", hex(&output));
        exit(1)
    }

    fn run(&self, parts: Parts, file: &[u8]) -> Run {
        self.program.run(parts).unwrap_or_else(|| self.fail("the program is not done in time", file, None))
    }

    /// One input, held to the model; a form that is not the input itself is the next
    /// input.
    fn parts(&mut self, parts: Parts) -> Held {
        let file = parts.concat();
        let plan = model::read(&file);
        let (output, errors) = wanted(&file);
        self.files += 1;
        let run = self.run(parts, &file);
        let held = [
            ("the exit status is not 0", run.status == Some(0)),
            ("standard error differs", run.errors == errors.as_bytes()),
            ("the form differs", run.output == output),
        ];
        for (what, holds) in held {
            if !holds {
                self.fail(what, &file, Some(&run));
            }
        }
        let number = plan.as_ref().map_or_else(|refusal| refusal.0, |_| 0);
        self.times[number as usize] += 1;
        let plan = plan.ok();
        let form = plan.is_some().then_some(run.output);
        if let Some(form) = form.as_ref().filter(|form| **form != file) {
            let again = self.run(vec![form.clone()], form);
            if again.output != *form {
                self.fail("the form of the form differs", form, Some(&again));
            }
        }
        Held { file, plan, form }
    }

    fn file(&mut self, file: &[u8]) -> Held {
        self.parts(vec![file.to_vec()])
    }

    /// A file of these tasks. If the model accepts it, it reads them.
    fn encoded(&mut self, tasks: &[Task], layout: &Layout) -> Held {
        let held = self.file(&encode(tasks, layout));
        if held.plan.as_ref().is_some_and(|plan| plan != tasks) {
            self.fail("the model reads other tasks", &held.file, None);
        }
        held
    }

    /// Two files: their forms are equal exactly where both are accepted and their
    /// plans are equal. Says whether both are accepted.
    fn pair(&mut self, one: &Held, other: &Held) -> bool {
        let accepted = one.plan.is_some() && other.plan.is_some();
        let equal = accepted && one.plan == other.plan;
        if equal != (one.form.is_some() && one.form == other.form) {
            println!("one file of {} bytes: {}", one.file.len(), hex(&one.file));
            self.fail("the forms of two plans are equal, or those of one plan differ", &other.file, None);
        }
        self.equal += u64::from(equal);
        self.different += u64::from(accepted && !equal);
        accepted
    }

    /// Two files that were made of one plan.
    fn sound_pair(&mut self, one: &Held, other: &Held) {
        if !self.pair(one, other) {
            self.fail("a sound file is refused", &other.file, None);
        }
    }
}

// Pairs.

/// Fields of one to three bytes, under drawn names. In version 2 one task or more has
/// blocking.
fn wide_plan(random: &mut Random, version: u64, n: usize) -> Vec<Task> {
    let tick = |random: &mut Random| {
        let most = random.of(&[9, 255, 256, 65_535, 65_536, TICK_MAX]);
        random.within(1, most)
    };
    let rows: Vec<_> = (0..n)
        .map(|_| {
            let (a, b) = (tick(random), tick(random));
            (tick(random), a.min(b), a.max(b), tick(random), random.within(0, WEIGHT_MAX))
        })
        .collect();
    let mut tasks = named(&rows);
    name_all(random, &mut tasks);
    if version == 2 {
        for task in &mut tasks {
            task.blocking = if random.chance(3) { 0 } else { tick(random) };
            task.jitter = if random.chance(3) { 0 } else { tick(random) };
        }
        tasks[random.index(n)].blocking = tick(random);
    }
    tasks
}

/// What makes another plan of one that has two tasks or more.
type Change = fn(&mut Random, &mut Vec<Task>);

/// One field by one, which may leave its limits.
fn change_field(random: &mut Random, tasks: &mut Vec<Task>) {
    let i = random.index(tasks.len());
    let task = &mut tasks[i];
    let field = match random.index(5) {
        0 => &mut task.wcet,
        1 => &mut task.period_min,
        2 => &mut task.period_max,
        3 => &mut task.deadline_cap,
        _ => &mut task.weight,
    };
    *field = if *field == 0 || random.chance(2) { *field + 1 } else { *field - 1 };
}

/// One byte of one name: another letter, one letter more or one less, or a zero
/// between letters.
fn change_name(random: &mut Random, tasks: &mut Vec<Task>) {
    let i = random.index(tasks.len());
    let name = &mut tasks[i].name;
    let end = name.iter().position(|&byte| byte == 0).unwrap_or(15);
    let at = random.index(end + 1);
    let old = name[at];
    while name[at] == old {
        name[at] = random.of(b"Az9-\0");
    }
}

/// Two of n places, the first one first.
fn two_of(random: &mut Random, n: usize) -> (usize, usize) {
    let later = 1 + random.index(n - 1);
    (random.index(later), later)
}

fn exchange_tasks(random: &mut Random, tasks: &mut Vec<Task>) {
    let (one, other) = two_of(random, tasks.len());
    tasks.swap(one, other);
}

/// Two names; the rows stay.
fn exchange_names(random: &mut Random, tasks: &mut Vec<Task>) {
    let (one, other) = two_of(random, tasks.len());
    let name = tasks[one].name;
    tasks[one].name = tasks[other].name;
    tasks[other].name = name;
}

/// Two rows; the names stay.
fn exchange_rows(random: &mut Random, tasks: &mut Vec<Task>) {
    let (one, other) = two_of(random, tasks.len());
    let names = (tasks[one].name, tasks[other].name);
    tasks.swap(one, other);
    (tasks[one].name, tasks[other].name) = names;
}

fn drop_task(random: &mut Random, tasks: &mut Vec<Task>) {
    let i = random.index(tasks.len());
    tasks.remove(i);
}

/// Blocking or jitter of one task by one, which may leave its limits.
fn change_further_field(random: &mut Random, tasks: &mut Vec<Task>) {
    let i = random.index(tasks.len());
    let field = if random.chance(2) { &mut tasks[i].blocking } else { &mut tasks[i].jitter };
    *field = if *field == 0 || random.chance(2) { *field + 1 } else { *field - 1 };
}

fn exchange_further_fields(random: &mut Random, tasks: &mut Vec<Task>) {
    let i = random.index(tasks.len());
    let task = &mut tasks[i];
    (task.blocking, task.jitter) = (task.jitter, task.blocking);
}

/// What is left fits version 1.
fn drop_further_fields(_: &mut Random, tasks: &mut Vec<Task>) {
    tasks.iter_mut().for_each(|task| (task.blocking, task.jitter) = (0, 0));
}

const CHANGES: [(&str, Change); 6] = [
    ("a field changed by one", change_field),
    ("a byte of a name changed", change_name),
    ("two tasks exchanged", exchange_tasks),
    ("two names exchanged", exchange_names),
    ("two rows exchanged", exchange_rows),
    ("a task dropped", drop_task),
];

const FURTHER_CHANGES: [(&str, Change); 3] = [
    ("a hold or late changed by one", change_further_field),
    ("hold and late exchanged", exchange_further_fields),
    ("all holds and lates dropped", drop_further_fields),
];

/// Pairs of a plan and its change, in one layout or in two.
fn changed_pairs(comparison: &mut Comparison, random: &mut Random, count: u64, what: &str, change: Change) {
    let mut accepted = 0;
    for _ in 0..count {
        let n = random.of(&[2, 3, 5, 9, 16]);
        let version = comparison.version;
        let tasks = wide_plan(random, version, n);
        let mut changed = tasks.clone();
        change(random, &mut changed);
        let first = layout(random, version, n);
        let alike = changed.len() == n && random.chance(2);
        let second = if alike { first.clone() } else { layout(random, version, changed.len()) };
        let one = comparison.encoded(&tasks, &first);
        let other = comparison.encoded(&changed, &second);
        accepted += u64::from(comparison.pair(&one, &other));
    }
    println!("version {}, {what}: {accepted} of {count} pairs accepted", comparison.version);
    if accepted < count / 2 {
        println!("these are too few");
        comparison.mostly_accepted = false;
    }
}

/// Pairs of one plan in two layouts.
fn layout_pairs(comparison: &mut Comparison, random: &mut Random, count: u64) {
    for _ in 0..count {
        let n = random.within(1, 16) as usize;
        let version = comparison.version;
        let tasks = wide_plan(random, version, n);
        let first = layout(random, version, n);
        let mut second = first.clone();
        while second == first {
            second = layout(random, version, n);
        }
        let one = comparison.encoded(&tasks, &first);
        let other = comparison.encoded(&tasks, &second);
        comparison.sound_pair(&one, &other);
    }
}

/// Plans of one, two and sixteen tasks with no gap, a small one or a wide one in every
/// place. A file without gaps and with the rows first is its own form.
fn chosen_layouts(comparison: &mut Comparison, random: &mut Random) {
    for n in [1, 2, 16] {
        let version = comparison.version;
        let tasks = wide_plan(random, version, n);
        let plain = comparison.encoded(&tasks, &tight(version, n));
        if plain.form.as_ref() != Some(&plain.file) {
            comparison.fail("not its own form", &plain.file, None);
        }
        let wide = (FILE_MAX - plain.file.len()) / 3;
        for layout in layouts(version, n, &[0, 1, wide]) {
            let other = comparison.encoded(&tasks, &layout);
            comparison.sound_pair(&plain, &other);
        }
    }
}

/// Pairs of one plan in version 1 and, with fields of 0, in version 2.
fn version_pairs(comparison: &mut Comparison, random: &mut Random, count: u64) {
    for _ in 0..count {
        let n = random.within(1, 16) as usize;
        let tasks = wide_plan(random, 1, n);
        let [first, second] = [1, 2].map(|version| layout(random, version, n));
        let one = comparison.encoded(&tasks, &first);
        let other = comparison.encoded(&tasks, &second);
        comparison.sound_pair(&one, &other);
    }
}

/// One field of one task makes the form one of version 2.
fn single_fields(comparison: &mut Comparison, random: &mut Random) {
    for n in [1, 2, 16] {
        let tasks = wide_plan(random, 1, n);
        let plain = comparison.encoded(&tasks, &tight(1, n));
        for k in 0..2 * n {
            let mut fields = vec![(0, 0); n];
            fields[k / 2] = [(1, 0), (0, 1)][k % 2];
            let other = comparison.encoded(&filled(tasks.clone(), &fields), &tight(2, n));
            comparison.pair(&plain, &other);
            if other.form.as_ref() != Some(&other.file) {
                comparison.fail("not its own form", &other.file, None);
            }
        }
    }
}

/// A file and itself with one bit flipped.
fn flipped_pairs(comparison: &mut Comparison, tasks: &[Task], layout: &Layout) {
    let sound = comparison.encoded(tasks, layout);
    for bit in 0..8 * layout.total {
        let mut file = sound.file.clone();
        file[bit / 8] ^= 1 << (bit % 8);
        let flipped = comparison.file(&file);
        comparison.pair(&sound, &flipped);
    }
}

fn damaged_pairs(comparison: &mut Comparison, random: &mut Random, count: u64) {
    for _ in 0..count {
        let one = comparison.file(&damaged_file(random, comparison.version));
        let other = comparison.file(&damaged_file(random, comparison.version));
        comparison.pair(&one, &other);
    }
}

// Files.

fn sound_files(
    comparison: &mut Comparison,
    random: &mut Random,
    count: u64,
    plan: impl Fn(&mut Random) -> Vec<Task>,
) {
    for _ in 0..count {
        let tasks = plan(random);
        comparison.file(&sound_file(random, comparison.version, &tasks));
    }
}

/// Inputs that a pipe delivers in parts.
fn in_parts(comparison: &mut Comparison, random: &mut Random, samples: &[Vec<u8>]) {
    let mut inputs: Vec<Parts> = samples.iter().flat_map(|file| cuts(file)).collect();
    inputs.extend(long_cuts());
    for _ in 0..40 {
        let file = damaged_file(random, comparison.version);
        inputs.push(cut(&file, random.index(file.len() + 1)));
    }
    inputs.push(byte_by_byte());
    for parts in inputs {
        comparison.parts(parts);
    }
}

/// The model against the bytes of plan P that docs/FORMAT.md gives, and against those of
/// P with the radio's blocking 1 and jitter 256.
fn example() {
    let mut tasks = named(&[(1, 1, 6, 1_000, 1), (2, 1, 8, 1_000, 1)]);
    tasks[0].name[..5].copy_from_slice(b"gauge");
    tasks[1].name[..5].copy_from_slice(b"radio");
    let bytes = [
        "01000200100000003800000058000000",
        "010000000100000006000000e803000001000000",
        "020000000100000008000000e803000001000000",
        "67617567650000000000000000000000",
        "726164696f0000000000000000000000",
    ];
    assert_eq!(hex(&model::form(&tasks)), bytes.concat());
    let bytes = [
        "02000200100000004800000068000000",
        "010000000100000006000000e8030000010000000000000000000000",
        "020000000100000008000000e8030000010000000100000000010000",
        "67617567650000000000000000000000",
        "726164696f0000000000000000000000",
    ];
    assert_eq!(hex(&model::form(&filled(tasks, &[(0, 0), (1, 256)]))), bytes.concat());
}

/// Two tasks and one, in names of sixteen letters, with every bit flipped.
fn chosen_flips(comparison: &mut Comparison, random: &mut Random, apart: &Layout) {
    let mut tasks = wide_plan(random, comparison.version, 2);
    tasks[0].name = *b"sixteen-letters-";
    tasks[1].name = *b"Sixteen-letters-";
    flipped_pairs(comparison, &tasks, &tight(comparison.version, 2));
    flipped_pairs(comparison, &tasks[..1], apart);
}

fn version_1<'a>(program: &'a Program, seed: u64, random: &mut Random) -> Comparison<'a> {
    let mut comparison = Comparison::new(program, 1, seed);
    let samples = sample_files(1);
    for file in samples.iter().chain(&lengths()) {
        comparison.file(file);
    }
    in_parts(&mut comparison, random, &samples);
    sound_files(&mut comparison, random, 1, |_| dearest_plan());
    sound_files(&mut comparison, random, 50, small_plan);
    sound_files(&mut comparison, random, 50, extreme_plan);
    sound_files(&mut comparison, random, 50, infeasible_plan);
    sound_files(&mut comparison, random, 50, random_plan);
    sound_files(&mut comparison, random, 50, |random| loaded_plan(random, 16, 90, false));
    chosen_layouts(&mut comparison, random);
    layout_pairs(&mut comparison, random, 350);
    for (what, change) in CHANGES {
        changed_pairs(&mut comparison, random, 150, what, change);
    }
    chosen_flips(&mut comparison, random, &Layout { version: 1, rows: 34, names: 17, total: 56 });
    damaged_pairs(&mut comparison, random, 500);
    comparison
}

fn version_2<'a>(program: &'a Program, seed: u64, random: &mut Random) -> Comparison<'a> {
    let mut comparison = Comparison::new(program, 2, seed);
    for file in sample_files(2) {
        cuts(&file).into_iter().for_each(|parts| drop(comparison.parts(parts)));
    }
    let traps = [version_traps(1, &[0, 8], &[1, 2]), version_traps(2, &[0, 16], &[1, 2])].concat();
    for file in limit_files(2).iter().chain(&traps) {
        comparison.file(file);
    }
    sound_files(&mut comparison, random, 1, |_| latest_plan());
    sound_files(&mut comparison, random, 50, delayed(small_plan));
    sound_files(&mut comparison, random, 50, delayed(extreme_plan));
    sound_files(&mut comparison, random, 50, infeasible_plan_2);
    sound_files(&mut comparison, random, 50, delayed(random_plan));
    chosen_layouts(&mut comparison, random);
    single_fields(&mut comparison, random);
    version_pairs(&mut comparison, random, 200);
    layout_pairs(&mut comparison, random, 150);
    for (what, change) in CHANGES.into_iter().chain(FURTHER_CHANGES) {
        changed_pairs(&mut comparison, random, 100, what, change);
    }
    chosen_flips(&mut comparison, random, &Layout { version: 2, rows: 34, names: 17, total: 64 });
    damaged_pairs(&mut comparison, random, 250);
    comparison
}

/// Whether every number came, and equal and different plans came often.
fn covers(comparison: &Comparison) -> bool {
    let often = comparison.equal >= EQUAL_LEAST && comparison.different >= DIFFERENT_LEAST;
    if !often {
        println!("there are fewer than {EQUAL_LEAST} pairs equal or {DIFFERENT_LEAST} different");
    }
    coverage(comparison.version, &comparison.times, 0..=11) && often && comparison.mostly_accepted
}

fn counts(comparison: &Comparison) -> String {
    let Comparison { version, files, equal, different, .. } = comparison;
    format!("{files} files made in version {version} with {equal} pairs equal, {different} different")
}

fn main() {
    let (program, seed) = arguments("forms");
    let mut random = Random(seed);
    example();
    let one = version_1(&program, seed, &mut random);
    let two = version_2(&program, seed, &mut random);
    let complete = covers(&one) & covers(&two);
    println!("{}, {}, seed {seed}: all as the model says", counts(&one), counts(&two));
    if !complete {
        exit(1);
    }
}
