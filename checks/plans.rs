//! Plan files for the outside checks: sound plans of several kinds in every layout
//! and both versions, and damage to them. One seed always gives the same files.

use crate::model::{Task, TICK_MAX, WEIGHT_MAX};

pub const FILE_MAX: usize = 2_048;

// Random numbers (splitmix64).

pub struct Random(pub u64);

impl Random {
    pub fn next(&mut self) -> u64 {
        self.0 = self.0.wrapping_add(0x9e37_79b9_7f4a_7c15);
        let mut z = self.0;
        z = (z ^ z >> 30).wrapping_mul(0xbf58_476d_1ce4_e5b9);
        z = (z ^ z >> 27).wrapping_mul(0x94d0_49bb_1331_11eb);
        z ^ z >> 31
    }

    /// From low to high, both included.
    pub fn within(&mut self, low: u64, high: u64) -> u64 {
        low + self.next() % (high - low + 1)
    }

    pub fn index(&mut self, length: usize) -> usize {
        (self.next() % length as u64) as usize
    }

    pub fn chance(&mut self, one_in: u64) -> bool {
        self.next() % one_in == 0
    }

    pub fn of<T: Copy>(&mut self, choices: &[T]) -> T {
        choices[self.index(choices.len())]
    }
}

// Plan files.

#[derive(Clone, PartialEq)]
pub struct Layout {
    pub version: u64,
    pub rows: usize,
    pub names: usize,
    pub total: usize,
}

fn row_width(version: u64) -> usize {
    if version == 1 {
        20
    } else {
        28
    }
}

pub fn put(file: &mut [u8], at: usize, value: u64, width: usize) {
    file[at..at + width].copy_from_slice(&value.to_le_bytes()[..width]);
}

/// In version 1 blocking and jitter are left out.
pub fn encode(tasks: &[Task], layout: &Layout) -> Vec<u8> {
    let width = row_width(layout.version);
    let mut file = vec![0; layout.total];
    put(&mut file, 0, layout.version, 2);
    put(&mut file, 2, tasks.len() as u64, 2);
    put(&mut file, 4, layout.rows as u64, 4);
    put(&mut file, 8, layout.names as u64, 4);
    put(&mut file, 12, layout.total as u64, 4);
    for (i, task) in tasks.iter().enumerate() {
        for (k, field) in task.fields()[..width / 4].iter().enumerate() {
            put(&mut file, layout.rows + width * i + 4 * k, *field, 4);
        }
        file[layout.names + 16 * i..layout.names + 16 * i + 16].copy_from_slice(&task.name);
    }
    file
}

/// Rows right after the header, names right after the rows.
pub fn tight(version: u64, n: usize) -> Layout {
    let names = 16 + row_width(version) * n;
    Layout { version, rows: 16, names, total: names + 16 * n }
}

/// Either order of the areas; without gaps, with small ones, or filling the
/// longest file there is.
pub fn layout(random: &mut Random, version: u64, n: usize) -> Layout {
    let names_first = random.chance(2);
    let (rows, names) = (row_width(version) * n, 16 * n);
    let (first, second) = if names_first { (names, rows) } else { (rows, names) };
    let mut spare = match random.index(8) {
        0..=3 => 0,
        4..=6 => random.index(40),
        _ => FILE_MAX - tight(version, n).total,
    };
    let mut gap = |random: &mut Random| {
        let gap = if random.chance(3) { 0 } else { random.index(spare + 1) };
        spare -= gap;
        gap
    };
    let at_first = 16 + gap(random);
    let at_second = at_first + first + gap(random);
    let total = at_second + second + spare;
    let (rows, names) = if names_first { (at_second, at_first) } else { (at_first, at_second) };
    Layout { version, rows, names, total }
}

/// Both orders of the areas, with each of the gaps before, between and behind them.
pub fn layouts(version: u64, n: usize, gaps: &[usize]) -> Vec<Layout> {
    let mut layouts = Vec::new();
    let [rows, names] = [row_width(version) * n, 16 * n];
    let count = gaps.len();
    for choice in 0..count.pow(3) {
        let [before, between, behind] = [0, 1, 2].map(|place| gaps[choice / count.pow(place) % count]);
        let start = 16 + before;
        let total = start + rows + between + names + behind;
        layouts.push(Layout { version, rows: start, names: start + rows + between, total });
        layouts.push(Layout { version, rows: start + names + between, names: start, total });
    }
    layouts
}

const LETTERS: &[u8] = b"ABCDEFGHIJKLMNOPQRSTUVWXYZabcdefghijklmnopqrstuvwxyz0123456789-";

fn name(random: &mut Random) -> [u8; 16] {
    let mut name = [0; 16];
    for at in 0..random.within(1, 16) as usize {
        name[at] = random.of(LETTERS);
    }
    name
}

/// Names that differ, some only in their last letter or by one letter more.
pub fn name_all(random: &mut Random, tasks: &mut [Task]) {
    for i in 0..tasks.len() {
        loop {
            let mut candidate = name(random);
            if i > 0 && random.chance(4) {
                candidate = tasks[random.index(i)].name;
                let length = candidate.iter().position(|&b| b == 0).unwrap_or(16);
                candidate[length.min(15)] = random.of(LETTERS);
            }
            if tasks[..i].iter().all(|task| task.name != candidate) {
                tasks[i].name = candidate;
                break;
            }
        }
    }
}

fn task(wcet: u64, period_min: u64, period_max: u64, deadline_cap: u64, weight: u64) -> Task {
    Task { wcet, period_min, period_max, deadline_cap, weight, blocking: 0, jitter: 0, name: [0; 16] }
}

/// A file of these tasks, under names and in a layout drawn for it.
pub fn sound_file(random: &mut Random, version: u64, tasks: &[Task]) -> Vec<u8> {
    let mut tasks = tasks.to_vec();
    name_all(random, &mut tasks);
    let layout = layout(random, version, tasks.len());
    encode(&tasks, &layout)
}

// Plans.

/// Tasks by hand, named a, b, c and so on.
pub fn named(rows: &[(u64, u64, u64, u64, u64)]) -> Vec<Task> {
    let mut tasks: Vec<Task> = rows.iter().map(|row| task(row.0, row.1, row.2, row.3, row.4)).collect();
    for (i, task) in tasks.iter_mut().enumerate() {
        task.name[0] = b'a' + i as u8;
    }
    tasks
}

/// The tasks with this blocking and jitter.
pub fn filled(mut tasks: Vec<Task>, fields: &[(u64, u64)]) -> Vec<Task> {
    for (task, &(blocking, jitter)) in tasks.iter_mut().zip(fields) {
        (task.blocking, task.jitter) = (blocking, jitter);
    }
    tasks
}

/// The dearest answer there is: 16,000,000,000, which 32 bits do not hold.
pub fn dearest_plan() -> Vec<Task> {
    named(&[(62_500, TICK_MAX, TICK_MAX, TICK_MAX, WEIGHT_MAX); 16])
}

/// A plan small enough to try every assignment.
pub fn small_plan(random: &mut Random) -> Vec<Task> {
    let n = random.within(1, 4);
    let work = random.within(1, 5);
    let weight = random.of(&[0, 1, 3, WEIGHT_MAX]);
    (0..n)
        .map(|i| {
            let wcet = random.within(1, work);
            let period_min = random.within(1, wcet + 2 * i + 1);
            let width = random.within(0, if n == 4 { 4 } else { 8 });
            let cap = if random.chance(3) { random.within(1, 14) } else { random.of(&[1_000, TICK_MAX]) };
            task(wcet, period_min, period_min + width + i, cap, random.within(0, weight))
        })
        .collect()
}

/// A plan after the random ones of Zhao, Zhou and Zeng (docs/BENCHMARKS.md), with
/// bounds of several widths.
pub fn random_plan(random: &mut Random) -> Vec<Task> {
    let n = random.within(1, 16);
    let work = random.of(&[3, 20, 100]);
    let wcets: Vec<u64> = (0..n).map(|_| random.within(1, work)).collect();
    let sum: u64 = wcets.iter().sum();
    let times = random.within(1, 5);
    let tight_caps = random.chance(3);
    wcets
        .iter()
        .map(|&wcet| {
            let period_max = (times * sum).max(wcet);
            let period_min = match random.index(4) {
                0 => 1,
                1 => wcet,
                2 => period_max - random.within(0, period_max / 4),
                _ => random.within(1, period_max),
            };
            let cap = if tight_caps { random.within(wcet, 2 * sum + wcet) } else { TICK_MAX };
            task(wcet, period_min, period_max.max(period_min), cap, random.within(0, WEIGHT_MAX))
        })
        .collect()
}

/// Low bounds just below the sum of all work, where equal periods would be
/// schedulable: long searches with many children a round.
pub fn loaded_plan(random: &mut Random, n: u64, percent: u64, even_weights: bool) -> Vec<Task> {
    let wcets: Vec<u64> = (0..n).map(|_| random.within(1, 20)).collect();
    let sum: u64 = wcets.iter().sum();
    wcets
        .iter()
        .map(|&wcet| {
            let weight = if even_weights { 1 } else { random.within(0, WEIGHT_MAX) };
            task(wcet, (sum * percent / 100).max(1), 2 * sum, TICK_MAX, weight)
        })
        .collect()
}

/// Fields at and next to their limits. Few tasks: a climb by single ticks to
/// 1,000,000 is slow for everyone.
pub fn extreme_plan(random: &mut Random) -> Vec<Task> {
    let n = random.within(1, 3);
    let ticks = [1, 2, 3, 499_999, 500_000, 500_001, TICK_MAX - 1, TICK_MAX];
    (0..n)
        .map(|_| {
            let (a, b) = (random.of(&ticks), random.of(&ticks));
            let cap = if random.chance(2) { TICK_MAX } else { random.of(&ticks) };
            let weight = random.of(&[0, 1, WEIGHT_MAX - 1, WEIGHT_MAX]);
            task(random.of(&ticks[..7]), a.min(b), a.max(b), cap, weight)
        })
        .collect()
}

/// Sixteen tasks whose k-th is the first that cannot meet its deadline: alone
/// (31) or under those above it (32).
pub fn infeasible_plan(random: &mut Random) -> Vec<Task> {
    let mut tasks: Vec<Task> = (0..16).map(|_| task(2, random.within(1, 40), 40, 1_000, 1)).collect();
    let k = random.index(16) as u64;
    let broken = &mut tasks[k as usize];
    if random.chance(2) {
        broken.wcet = random.within(3, 9);
        broken.deadline_cap = random.within(1, broken.wcet - 1);
    } else if k > 0 {
        broken.deadline_cap = random.within(2, 2 * k + 1);
    }
    tasks
}

// Blocking and jitter.

/// The most blocking or jitter that a task can take on and, alone, meet its deadline.
fn room(task: &Task) -> u64 {
    task.period_max.min(task.deadline_cap).saturating_sub(task.wcet + task.blocking + task.jitter)
}

/// Blocking or jitter of a task.
type Field = fn(&mut Task) -> &mut u64;

const BLOCKING: Field = |task| &mut task.blocking;
const JITTER: Field = |task| &mut task.jitter;

/// One task, rather a high one, by far more than others ask for.
fn fill_one(random: &mut Random, tasks: &mut [Task], field: Field) {
    let i = random.index(tasks.len()).min(random.index(tasks.len()));
    let most = room(&tasks[i]);
    *field(&mut tasks[i]) = random.within(most / 4, most);
}

fn fill_all(random: &mut Random, tasks: &mut [Task], field: Field) {
    let share = random.of(&[2, 4, 16]);
    for task in tasks {
        *field(task) = random.within(0, room(task) / share);
    }
}

/// One task up to its deadline, or past it by one tick, or the most there is.
fn fill_to_deadline(random: &mut Random, tasks: &mut [Task], field: Field) {
    let i = random.index(tasks.len());
    let most = room(&tasks[i]);
    *field(&mut tasks[i]) = random.of(&[most, most, most + 1, TICK_MAX]);
}

/// At most the longest work below, as resources that tasks share would have it.
fn block_by_work(random: &mut Random, tasks: &mut [Task]) {
    let mut longest = 0;
    for task in tasks.iter_mut().rev() {
        task.blocking = random.within(0, longest);
        longest = longest.max(task.wcet);
    }
}

fn block_some(random: &mut Random, tasks: &mut [Task]) {
    match random.index(4) {
        0 => block_by_work(random, tasks),
        1 => fill_one(random, tasks, BLOCKING),
        2 => fill_all(random, tasks, BLOCKING),
        _ => fill_to_deadline(random, tasks, BLOCKING),
    }
}

/// A few ticks each, or none.
fn jitter_few(random: &mut Random, tasks: &mut [Task]) {
    for task in tasks {
        task.jitter = random.of(&[0, 0, 1, 2, 3]);
    }
}

fn jitter_some(random: &mut Random, tasks: &mut [Task]) {
    match random.index(4) {
        0 => jitter_few(random, tasks),
        1 => fill_one(random, tasks, JITTER),
        2 => fill_all(random, tasks, JITTER),
        _ => fill_to_deadline(random, tasks, JITTER),
    }
}

/// Plans of a kind with blocking of all kinds, with jitter of all kinds, and with both.
pub fn delayed(plan: impl Fn(&mut Random) -> Vec<Task>) -> impl Fn(&mut Random) -> Vec<Task> {
    move |random| {
        let mut tasks = plan(random);
        let kind = random.index(3);
        if kind != 0 {
            block_some(random, &mut tasks);
        }
        if kind != 1 {
            jitter_some(random, &mut tasks);
        }
        tasks
    }
}

/// Sixteen tasks that all respond at the last tick there is, after blocking and jitter of
/// about half of that each.
pub fn latest_plan() -> Vec<Task> {
    let mut tasks = named(&[(1, TICK_MAX, TICK_MAX, TICK_MAX, WEIGHT_MAX); 16]);
    for (i, task) in tasks.iter_mut().enumerate() {
        task.jitter = TICK_MAX / 2;
        task.blocking = TICK_MAX / 2 - 1 - i as u64;
    }
    tasks
}

/// Sixteen tasks that meet their deadlines but for the k-th: by its blocking and jitter it
/// responds, alone, one tick past its deadline (31), or just at it, which leaves no time
/// for those above (32) where there are any. Its jitter may make some below late, too.
pub fn infeasible_plan_2(random: &mut Random) -> Vec<Task> {
    let mut tasks: Vec<Task> = (0..16).map(|_| task(2, random.within(1, 40), 40, 1_000, 1)).collect();
    let blocking_most = random.within(0, 8);
    for task in &mut tasks {
        task.blocking = random.within(0, blocking_most);
        task.jitter = random.within(0, 8 - blocking_most);
    }
    let broken = &mut tasks[random.index(16)];
    if random.chance(2) {
        broken.deadline_cap = random.within(2, 40);
    }
    (broken.blocking, broken.jitter) = (0, 0);
    let delay = room(broken) + random.within(0, 1);
    broken.blocking = random.within(0, delay);
    broken.jitter = delay - broken.blocking;
    tasks
}

// Damage.

/// Damages a file in one place, so that mostly one rule is broken; the layout is
/// that of the sound file, which other damage may have made untrue.
fn damage(random: &mut Random, file: &mut Vec<u8>, layout: &Layout, n: usize) {
    if file.len() < layout.total {
        return;
    }
    let (rows, names, total) = (layout.rows, layout.names, layout.total as u64);
    let width = row_width(layout.version);
    let i = random.index(n);
    let wild = [0, 1, 15, 16, 17, total, 0x7fff_ffff, 0x8000_0000, 0xffff_fff0, 0xffff_ffff];
    let any = random.of(&wild);
    match random.index(18) {
        0 => file.truncate(random.index(file.len() + 1)),
        1 => file.truncate(random.index(17)),
        2 => {
            let length = random.of(&[file.len() + 1, file.len() + 7, FILE_MAX, FILE_MAX + 1, 3_000]);
            file.resize(length.max(file.len()), random.of(&[0, 1]));
            if random.chance(2) {
                let length = file.len() as u64;
                put(file, 12, length, 4);
            }
        }
        3 if layout.version == 1 => put(file, 0, random.of(&[0, 2, 3, 256, 257, 0xffff]), 2),
        3 => put(file, 0, random.of(&[0, 1, 3, 256, 257, 258, 512, 0xffff]), 2),
        4 => put(file, 2, random.of(&[0, 17, 256, 257, 0xffff, n as u64 - 1, n as u64 + 1]), 2),
        5 => put(file, 12, random.of(&[total - 1, total + 1, total + 65_536, 0, 0xffff_ffff]), 4),
        6 => {
            let last = total - (width * n) as u64;
            put(file, 4, random.of(&[any, last - 1, last, last + 1]), 4);
        }
        7 => {
            let last = total - 16 * n as u64;
            put(file, 8, random.of(&[any, last - 1, last, last + 1]), 4);
        }
        8 => put(file, 4, (names + random.index(2 * width)).saturating_sub(width) as u64, 4),
        9 => put(file, 8, (rows + random.of(&[0, width * n])) as u64 + random.within(0, 2) - 1, 4),
        10 | 11 => {
            // Gap bytes: the first, the last or any.
            let areas = [rows..rows + width * n, names..names + 16 * n];
            let gaps: Vec<usize> =
                (16..layout.total).filter(|at| !areas.iter().any(|area| area.contains(at))).collect();
            if let (Some(&first), Some(&last)) = (gaps.first(), gaps.last()) {
                let any = random.of(&gaps);
                file[random.of(&[first, last, any])] = random.of(&[1, 0x80, 0xff]);
            }
        }
        12 => {
            let k = random.index(width / 4);
            let limit = if k == 4 { WEIGHT_MAX } else { TICK_MAX };
            put(file, rows + width * i + 4 * k, random.of(&[0, limit, limit + 1, 0x8000_0001, 0xffff_ffff]), 4);
        }
        13 => {
            let low = random.within(2, 50);
            put(file, rows + width * i + 4, low, 4);
            put(file, rows + width * i + 8, low - 1, 4);
        }
        14 => {
            // Any byte in any place of a name.
            let (at, byte) = (names + 16 * i + random.index(16), random.next() as u8);
            file[at] = if random.chance(2) { byte } else { random.of(b"\0_ @[`{/:.,") };
        }
        15 => {
            let of = random.index(n);
            file.copy_within(names + 16 * of..names + 16 * of + 16, names + 16 * i);
        }
        16 => {
            for _ in 0..random.within(1, 8) {
                let at = random.index(file.len());
                file[at] ^= 1 << random.index(8);
            }
        }
        _ => {
            let from = random.index(file.len());
            let to = (from + random.index(24)).min(file.len());
            file[from..to].fill_with(|| random.next() as u8);
        }
    }
}

/// A file of small tasks, damaged in one place or a few.
pub fn damaged_file(random: &mut Random, version: u64) -> Vec<u8> {
    let n = if random.chance(2) { random.within(1, 4) } else { random.within(1, 16) } as usize;
    let mut tasks: Vec<Task> = (0..n)
        .map(|_| {
            let (wcet, period_min) = (random.within(1, 3), random.within(1, 30));
            task(wcet, period_min, period_min + random.within(0, 40), 200, random.within(0, WEIGHT_MAX))
        })
        .collect();
    if version == 2 {
        for task in &mut tasks {
            (task.blocking, task.jitter) = (random.within(0, 3), random.of(&[0, 1, 20]));
        }
    }
    name_all(random, &mut tasks);
    let layout = layout(random, version, n);
    let mut file = encode(&tasks, &layout);
    for _ in 0..random.of(&[1, 1, 1, 2, 4]) {
        damage(random, &mut file, &layout, n);
    }
    file
}

/// Files of n tasks with blocking or jitter of one of them about its limits.
pub fn limit_files(n: usize) -> Vec<Vec<u8>> {
    let sound = encode(&named(&vec![(1, 1_000, TICK_MAX, TICK_MAX, 1); n]), &tight(2, n));
    let mut files = Vec::new();
    for at in (0..n).flat_map(|i| [20, 24].map(|field| 16 + 28 * i + field)) {
        for value in [0, 1, TICK_MAX - 1, TICK_MAX, TICK_MAX + 1, 1 << 24, 1 << 31, 0xffff_ffff] {
            let mut file = sound.clone();
            put(&mut file, at, value, 4);
            files.push(file);
        }
    }
    files
}

/// Files of n tasks laid out for the rows of either version, under the version numbers
/// given: with rows of the other width their areas may pass the end or share bytes, or
/// fit only then. Some have a 1 right behind the rows of either width, in a gap, a field
/// or a name.
pub fn version_traps(n: usize, gaps: &[usize], numbers: &[u64]) -> Vec<Vec<u8>> {
    let tasks = filled(named(&vec![(1, 20, 40, 1_000, 1); n]), &vec![(1, 1); n]);
    let mut files = Vec::new();
    for layout in [1, 2].iter().flat_map(|&version| layouts(version, n, gaps)) {
        let sound = encode(&tasks, &layout);
        let marks = [1, 2].map(|version| layout.rows + row_width(version) * n);
        for &number in numbers {
            let mut file = sound.clone();
            put(&mut file, 0, number, 2);
            for at in marks.into_iter().filter(|&at| at < layout.total) {
                let mut marked = file.clone();
                marked[at] = 1;
                files.push(marked);
            }
            files.push(file);
        }
    }
    files
}
