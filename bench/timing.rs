//! Times `checktable`, `loadtable` and `writetable` against `plain` and prints markdown. Every run is a process of
//! its own, timed from its start to its end, with the table as standard input and a file as standard output. The
//! programs take turns, so that what else the machine does falls on both. It stops where the two do not print the
//! same. In the same way `test_bare`, which lends the search an empty index, is timed against `checktable`.
//!
//!     timing RUNS FOLDER CHECKTABLE LOADTABLE WRITETABLE BARE PLAIN NOTHING TABLE... -- TABLE... -- TABLE...
//!
//! FOLDER takes reports and the tables that are made here; NOTHING is a program that does nothing. The tables
//! after the first `--` are run by `loadtable` alone, those after the second by `writetable` alone.

use std::fs::{self, File};
use std::path::{Path, PathBuf};
use std::process::{exit, Command};
use std::time::Instant;

/// Less work than this, in milliseconds, is lost in what a process start varies by.
const LEAST_WORK: f64 = 0.1;

/// All tables are gone through so many times, so that a disturbance of some seconds falls on none of them alone.
const PASSES: usize = 4;

/// The goal: less its start, `checktable` takes no longer than this times `plain`, and with its start no longer
/// than so many milliseconds, on any table that is measured here.
const GOAL_RATIO: f64 = 1.0;
const GOAL_TIME: f64 = 10.0;

/// The goal of `writetable`: with its start it takes less than so many milliseconds.
const GOAL_WRITE: f64 = 5.0;

/// With an empty index a table is run so many times, and the goal is less than so many milliseconds.
const BARE_RUNS: usize = 5;
const GOAL_BARE: f64 = 1000.0;

/// A program, with the word that it is started with, if any.
struct Program {
    path: PathBuf,
    word: Option<&'static str>,
}

struct Bench {
    runs: usize,
    /// The product's program, `checktable`, `loadtable` or `writetable`, and the unverified one; or `test_bare`, and
    /// `checktable` in the place of that.
    ours: Program,
    plain: Program,
    /// A file of no bytes, where reports go, and where tables that are made here go.
    empty: PathBuf,
    report: PathBuf,
    made: PathBuf,
}

/// A program's times on a table in milliseconds, sorted, and those on a file of no bytes in the same rounds.
struct Times {
    on_table: Vec<f64>,
    on_empty: Vec<f64>,
}

/// What was measured of a table, and what its file and its report say of it.
struct Measured {
    name: String,
    states: Option<usize>,
    letters: usize,
    rows: usize,
    ours: Times,
    plain: Times,
}

fn fail(word: String) -> ! {
    eprintln!("timing: {word}");
    exit(1)
}

fn read(path: &Path) -> String {
    let bytes = fs::read(path);
    let bytes = bytes.unwrap_or_else(|error| fail(format!("cannot read {}: {error}", path.display())));
    String::from_utf8_lossy(&bytes).into_owned()
}

fn write(path: &Path, text: &str) {
    fs::write(path, text).unwrap_or_else(|error| fail(format!("cannot write {}: {error}", path.display())));
}

/// One run: the milliseconds from start to end, and what was printed.
fn run(program: &Program, table: &Path, report: &Path) -> (f64, String) {
    let input = File::open(table);
    let input = input.unwrap_or_else(|error| fail(format!("cannot read {}: {error}", table.display())));
    let output = File::create(report);
    let output = output.unwrap_or_else(|error| fail(format!("cannot write {}: {error}", report.display())));
    let began = Instant::now();
    let ended = Command::new(&program.path).args(program.word).stdin(input).stdout(output).status();
    let took = began.elapsed().as_secs_f64() * 1e3;
    match ended {
        Ok(status) if status.success() => (took, read(report)),
        Ok(status) => fail(format!("on {} {} ended with {status}", table.display(), program.path.display())),
        Err(error) => fail(format!("cannot start {}: {error}", program.path.display())),
    }
}

/// Shows where what a program prints parts from what is expected, and ends.
fn differ(table: &Path, program: &Program, ours: &str, plain: &str) -> ! {
    let same = ours.lines().zip(plain.lines()).take_while(|(one, other)| one == other).count();
    let line = |text: &str| text.lines().nth(same).unwrap_or("nothing more").to_string();
    let (one, other) = (line(ours), line(plain));
    let place = format!("what is printed differs on {}, line {}", table.display(), same + 1);
    fail(format!("{place}: {} prints '{one}', expected is '{other}'", program.path.display()))
}

fn sorted(mut all: Vec<f64>) -> Vec<f64> {
    all.sort_by(f64::total_cmp);
    all
}

impl Bench {
    fn measure(&self, table: &Path) -> Measured {
        let expected = run(&self.plain, table, &self.report).1;
        let programs = [&self.ours, &self.plain];
        let mut all = [(Vec::new(), Vec::new()), (Vec::new(), Vec::new())];
        // The first round warms up: it is compared like the others, and not counted.
        for round in 0..=self.runs {
            for (program, (on_empty, on_table)) in programs.iter().zip(&mut all) {
                let start = run(program, &self.empty, &self.report).0;
                let (took, printed) = run(program, table, &self.report);
                if printed != expected {
                    differ(table, program, &printed, &expected);
                }
                if round > 0 {
                    on_empty.push(start);
                    on_table.push(took);
                }
            }
        }
        let [ours, plain] = all.map(|(on_empty, on_table)| Times {
            on_table: sorted(on_table),
            on_empty: sorted(on_empty),
        });
        let text = read(table);
        let signals = text.lines().nth(1).map_or(0, |line| line.split(' ').count() - 1);
        Measured {
            name: table.file_stem().unwrap_or_default().to_string_lossy().into_owned(),
            states: expected.lines().find_map(|line| line.strip_prefix("configurations ")?.parse().ok()),
            letters: 1 << signals,
            rows: text.lines().count().saturating_sub(2),
            ours,
            plain,
        }
    }

    /// Measures a table that is made here; its signals are a, b and so on.
    fn measure_made(&self, kind: &str, signals: usize, rows: &[String]) -> Measured {
        let names: String = ('a'..).take(signals).map(|name| format!(" {name}")).collect();
        write(&self.made, &format!("PNP 0001\nsignals{names}\n{}", rows.concat()));
        let measured = self.measure(&self.made);
        let (states, letters) = (measured.states.map_or("refused".into(), thousands), measured.letters);
        let name = format!("{kind}, {states} states, {letters} letters, {} rows", rows.len());
        Measured { name, ..measured }
    }

    // ---- Tables that grow

    /// States rise, with three rows and eight letters; the tables are sound.
    fn by_states(&self) -> Vec<Measured> {
        let tables = [[4, 4, 4], [8, 8, 4], [16, 8, 8], [16, 16, 16]];
        let rows = tables.map(|[a, b, c]| [free('a', a), free('b', b), free('c', c)]);
        rows.iter().map(|rows| self.measure_made("by states, sound", 3, rows)).collect()
    }

    /// States rise, with two rows and two letters; every state is doomed, and the first one's lost number is
    /// their count.
    fn by_doomed(&self) -> Vec<Measured> {
        let rows = [8, 16, 32, 64].map(|n| [periodic(n - 1, "a"), periodic(n + 1, "!a")]);
        rows.iter().map(|rows| self.measure_made("by states, doomed", 1, rows)).collect()
    }

    /// Letters rise from 2 to 64, with two rows and always as many states; each signal is used, and many letters
    /// act alike.
    fn by_letters(&self) -> Vec<Measured> {
        let any = |signals| ('a'..).take(signals).map(String::from).collect::<Vec<_>>().join("|");
        let rows = |signals| [periodic(63, &any(signals)), periodic(65, "1")];
        (1..=6).map(|signals| self.measure_made("by letters", signals, &rows(signals))).collect()
    }

    /// Letters rise from 2 to 64, and each signal drives a row of its own, so that letters act apart. The first row
    /// breaks after so many ticks whatever is read: every state is doomed. There are always over 4,000 states.
    fn by_apart(&self) -> Vec<Measured> {
        let tables: [(usize, &[usize]); 6] = [
            (89, &[181]),
            (67, &[8, 8]),
            (65, &[4, 4, 4]),
            (51, &[3, 3, 3, 3]),
            (57, &[3, 3, 2, 2, 2]),
            (63, &[2, 2, 2, 2, 2, 2]),
        ];
        let rows = |(ticks, phases): (usize, &[usize])| -> Vec<String> {
            let driven = ('a'..).zip(phases).map(|(signal, &phases)| free(signal, phases));
            std::iter::once(fatal(ticks)).chain(driven).collect()
        };
        let tables = tables.map(|table| (table.1.len(), rows(table)));
        tables.iter().map(|(signals, rows)| self.measure_made("by letters apart", *signals, rows)).collect()
    }

    /// Rows rise from 1 to 8, with 64 letters. One row has at most 181 states; from two rows on, each further
    /// row repeats an earlier one, so that there are always as many states.
    fn by_rows(&self) -> Vec<Measured> {
        let two = [free('a', 64), free('b', 64)];
        let mut tables = vec![vec![free('a', 181)]];
        tables.extend((2..=8).map(|rows| two.iter().cycle().take(rows).cloned().collect()));
        tables.iter().map(|rows| self.measure_made("by rows", 6, rows)).collect()
    }

    // ---- Files that take long to read

    /// One row, whose first condition is short, and then the longest of some kinds that a file of 4,096 bytes has.
    fn by_conditions(&self) -> Vec<Measured> {
        let rest = ",a,a,0,0,0,0,a,a,a,0,0\n";
        let room = 4096 - "PNP 0001\nsignals a\nrule ".len() - rest.len();
        let joined = |part: &str, sign: &str| vec![part; (room + 1) / (part.len() + 1)].join(sign);
        let group = format!("{}a{}", "(".repeat(8), ")".repeat(8));
        let conditions = [
            ("`a`", "a".to_string()),
            ("a run of `!`", format!("{}a", "!".repeat(room - 1))),
            ("`a` joined by `&`", joined("a", "&")),
            ("`a` joined by a bar", joined("a", "|")),
            ("`a` in eight parentheses, joined by a bar", joined(&group, "|")),
        ];
        let measure = |(kind, condition): &(&str, String)| {
            let measured = self.measure_made(kind, 1, &[format!("rule {condition}{rest}")]);
            Measured { name: kind.to_string(), ..measured }
        };
        conditions.iter().map(measure).collect()
    }
}

/// A row with so many phases that its signal drives alone, and that never breaks.
fn free(signal: char, phases: usize) -> String {
    let trigger = (phases - 1).min(60);
    let delay = (phases - 1 - trigger).min(60);
    let action = phases - 1 - trigger - delay;
    format!("rule {signal},{signal},{signal},{trigger},{trigger},{delay},{delay},1,1,1,{action},{action}\n")
}

/// A row that starts over by itself every so many ticks, and breaks if the condition does not hold then.
fn periodic(ticks: usize, condition: &str) -> String {
    let trigger = (ticks - 1).min(60);
    let delay = ticks - 1 - trigger;
    format!("rule 1,1,1,{trigger},{trigger},{delay},{delay},1,1,{condition},0,0\n")
}

/// A row that starts at the first tick, and breaks so many ticks later.
fn fatal(ticks: usize) -> String {
    let delay = ticks.min(60);
    let trigger = ticks - delay;
    format!("rule 1,1,1,{trigger},{trigger},{delay},{delay},0,0,0,0,0\n")
}

// ---- What is printed

fn thousands(number: usize) -> String {
    match number {
        0..=999 => number.to_string(),
        _ => format!("{},{:03}", thousands(number / 1000), number % 1000),
    }
}

impl Measured {
    /// With the times of another pass over the same table.
    fn with(self, other: Measured) -> Measured {
        let both = |one: Times, other: Times| Times {
            on_table: sorted([one.on_table, other.on_table].concat()),
            on_empty: sorted([one.on_empty, other.on_empty].concat()),
        };
        let (ours, plain) = (both(self.ours, other.ours), both(self.plain, other.plain));
        Measured { ours, plain, ..self }
    }

    /// The columns that say which table it is.
    fn shape(&self) -> String {
        let states = self.states.map_or("refused".into(), thousands);
        format!("{states} | {} | {}", self.letters, self.rows)
    }

    fn ratio(&self) -> f64 {
        self.ours.best() / self.plain.best()
    }

    /// The ratio of what is left when each program's own start is taken off, if that is enough of the product's.
    /// Where `plain` has less left it counts as the least, so that no ratio is made too large by it, nor lost.
    fn work_ratio(&self) -> Option<f64> {
        let plain = self.plain.work().unwrap_or(LEAST_WORK);
        self.ours.work().map(|ours| ours / plain)
    }

    fn work_ratio_shown(&self) -> String {
        self.work_ratio().map_or("-".into(), |ratio| format!("{ratio:.2}"))
    }
}

impl Times {
    fn best(&self) -> f64 {
        self.on_table[0]
    }

    fn median(&self) -> f64 {
        self.on_table[self.on_table.len() / 2]
    }

    /// The median by which a table takes longer than the process start in the same rounds.
    fn past_start(&self) -> f64 {
        self.median() - self.on_empty[self.on_empty.len() / 2]
    }

    /// The best time without the process start, if that is enough to be told from the start.
    fn work(&self) -> Option<f64> {
        Some(self.best() - self.on_empty[0]).filter(|&work| work >= LEAST_WORK)
    }

    fn nanoseconds(&self, moves: usize) -> String {
        self.work().map_or("-".into(), |work| format!("{:.0}", work * 1e6 / moves as f64))
    }
}

fn print_tables(all: &[Measured]) {
    print!("| Table | States | Letters | Rows | checktable best | median ");
    println!("| plain best | median | Ratio | Less start |\n|-|-|-|-|-|-|-|-|-|-|");
    for one in all {
        let (ours, theirs) = (&one.ours, &one.plain);
        print!("| `{}` | {} | {:.2} | {:.2} ", one.name, one.shape(), ours.best(), ours.median());
        println!("| {:.2} | {:.2} | {:.1} | {} |", theirs.best(), theirs.median(), one.ratio(), one.work_ratio_shown());
    }
}

/// The tables that a program other than `checktable` was run on.
fn print_runs(title: &str, program: &str, all: &[Measured]) {
    print!("\n{title}\n\n| Table | Letters | Rows | {program} best | median ");
    println!("| plain best | median | Ratio | Less start |\n|-|-|-|-|-|-|-|-|-|");
    for one in all {
        let (ours, theirs) = (&one.ours, &one.plain);
        print!("| `{}` | {} | {} | {:.2} | {:.2} ", one.name, one.letters, one.rows, ours.best(), ours.median());
        println!("| {:.2} | {:.2} | {:.1} | {} |", theirs.best(), theirs.median(), one.ratio(), one.work_ratio_shown());
    }
}

/// The tables that were run with an empty index beside `checktable`, and one line: the goal, and the largest time.
fn print_bare(all: &[Measured]) {
    println!("\nWith an empty index, {BARE_RUNS} runs:\n");
    println!("| Table | States | Letters | Rows | test_bare best | checktable best |\n|-|-|-|-|-|-|");
    for one in all {
        println!("| `{}` | {} | {:.2} | {:.2} |", one.name, one.shape(), one.ours.best(), one.plain.best());
    }
    let [_, (time, slowest)] = largest(&all.iter().collect::<Vec<_>>());
    let met = if time < GOAL_BARE { "met" } else { "not met" };
    println!("\nGoal of {GOAL_BARE} ms with an empty index: {met}. Largest best time {time:.2} ms ({slowest}).");
}

fn print_growth(title: &str, all: &[Measured]) {
    print!("\n{title}\n\n| States | Letters | Rows | Moves | checktable best | ns a move ");
    println!("| plain best | ns a move | Ratio | Less start |\n|-|-|-|-|-|-|-|-|-|-|");
    for one in all {
        let (ours, theirs) = (&one.ours, &one.plain);
        let moves = one.states.unwrap_or(0) * one.letters;
        print!("| {} | {} | {:.2} | {} ", one.shape(), thousands(moves), ours.best(), ours.nanoseconds(moves));
        print!("| {:.2} | {} ", theirs.best(), theirs.nanoseconds(moves));
        println!("| {:.1} | {} |", one.ratio(), one.work_ratio_shown());
    }
}

/// How much longer a table takes than the first of them, in microseconds, in both programs.
fn print_conditions(all: &[Measured]) {
    println!("\nReading conditions of up to 4,096 bytes, in microseconds more than `a`:\n");
    println!("| Condition | checktable median | plain median | Ratio |\n|-|-|-|-|");
    let Some((short, long)) = all.split_first() else { return };
    for one in long {
        let more = |long: &Times, short: &Times| (long.past_start() - short.past_start()) * 1e3;
        let (ours, theirs) = (more(&one.ours, &short.ours), more(&one.plain, &short.plain));
        println!("| {} | {ours:.0} | {theirs:.0} | {:.2} |", one.name, ours / theirs);
    }
}

/// The largest ratio less start and the largest best time of some tables, each with its table's name.
fn largest<'a>(all: &[&'a Measured]) -> [(f64, &'a str); 2] {
    let most = |pairs: Vec<(f64, &'a str)>| {
        let most = pairs.into_iter().max_by(|one, other| one.0.total_cmp(&other.0));
        most.unwrap_or((0.0, "none"))
    };
    let ratios = all.iter().filter_map(|one| Some((one.work_ratio()?, &one.name[..]))).collect();
    let times = all.iter().map(|one| (one.ours.best(), &one.name[..])).collect();
    [most(ratios), most(times)]
}

/// One line: whether all tables meet the goal, their largest ratio and time, and which are over it.
fn print_goal(all: &[&Measured]) {
    let [(ratio, name), (time, slowest)] = largest(all);
    let is_over = |one: &Measured| {
        one.ours.best() > GOAL_TIME || one.work_ratio().is_some_and(|ratio| ratio > GOAL_RATIO)
    };
    let over: Vec<&str> = all.iter().filter(|one| is_over(one)).map(|one| &one.name[..]).collect();
    let met = if over.is_empty() { "met".into() } else { format!("not met by {}", over.join("; ")) };
    print!("\nGoal of {GOAL_RATIO:.1} times plain less start and {GOAL_TIME} ms, on {} tables: {met}. ", all.len());
    println!("Largest ratio less start {ratio:.2} ({name}), largest best time {time:.2} ms ({slowest}).");
}

/// One line: whether `writetable` meets its goal, and its largest time.
fn print_write_goal(all: &[Measured]) {
    let [_, (time, slowest)] = largest(&all.iter().collect::<Vec<_>>());
    let met = if time < GOAL_WRITE { "met" } else { "not met" };
    println!("\nGoal of {GOAL_WRITE} ms for `writetable`: {met}. Largest best time {time:.2} ms ({slowest}).");
}

fn main() {
    let words: Vec<String> = std::env::args().skip(1).collect();
    let [runs, folder, checktable, loadtable, writetable, bare, plain, nothing, tables @ ..] = &words[..] else {
        let programs = "CHECKTABLE LOADTABLE WRITETABLE BARE PLAIN NOTHING";
        fail(format!("usage: timing RUNS FOLDER {programs} TABLE... -- TABLE... -- TABLE..."));
    };
    let runs = runs.parse().ok().filter(|&runs| runs > 0);
    let runs = runs.unwrap_or_else(|| fail("RUNS is a number from 1 on".into()));
    let mut parts = tables.split(|word| word == "--");
    let [tables, loads, writes] = [(); 3].map(|_| parts.next().unwrap_or_default());
    let folder = Path::new(folder);
    let program = |path: &String, word| Program { path: path.into(), word };
    let beside = |ours: &String, runs, plain: &String, word| Bench {
        runs,
        ours: program(ours, None),
        plain: program(plain, word),
        empty: folder.join("empty.pnp"),
        report: folder.join("report"),
        made: folder.join("made.pnp"),
    };
    let (bench, load) = (beside(checktable, runs, plain, None), beside(loadtable, runs, plain, Some("load")));
    let writer = beside(writetable, runs, plain, Some("write"));
    let scan = beside(bare, BARE_RUNS, checktable, None);
    write(&bench.empty, "");
    let pass = || -> Vec<Vec<Measured>> {
        let start = vec![bench.measure(&bench.empty)];
        let growth = [bench.by_states(), bench.by_doomed(), bench.by_letters(), bench.by_apart(), bench.by_rows()];
        let tables = tables.iter().map(|table| bench.measure(table.as_ref())).collect();
        let loads = loads.iter().map(|table| load.measure(table.as_ref())).collect();
        let writes = writes.iter().map(|table| writer.measure(table.as_ref())).collect();
        [start, loads, writes, bench.by_conditions(), tables].into_iter().chain(growth).collect()
    };
    let mut all = pass();
    for _ in 1..PASSES {
        let more = all.into_iter().zip(pass());
        all = more.map(|(one, other)| one.into_iter().zip(other).map(|(a, b)| a.with(b)).collect()).collect();
    }
    let [start, loads, writes, conditions, measured, growth @ ..] = &all[..] else { return };
    let scanned: Vec<Measured> = tables.iter().map(|table| scan.measure(table.as_ref())).collect();

    println!("Milliseconds, with the start of the process; {} runs of each program on each table.\n", PASSES * runs);
    println!("| Start alone | Best | Median |\n|-|-|-|");
    let nothing = program(nothing, None);
    let idle = sorted((0..runs).map(|_| run(&nothing, &bench.empty, &bench.report).0).collect());
    println!("| a program that does nothing | {:.2} | {:.2} |", idle[0], idle[runs / 2]);
    for (name, times) in [("checktable", &start[0].ours), ("plain", &start[0].plain)] {
        println!("| `{name}` on a file of no bytes | {:.2} | {:.2} |", times.best(), times.median());
    }
    println!();
    print_tables(measured);
    let titles = [
        "By states, sound:",
        "By states, every state doomed:",
        "By letters, many alike:",
        "By letters that act apart, every state doomed:",
        "By rows:",
    ];
    for (title, all) in titles.iter().zip(growth) {
        print_growth(title, all);
    }
    print_conditions(conditions);
    print_runs("The load, 1,000 ticks:", "loadtable", loads);
    print_runs("`writetable`:", "writetable", writes);
    print_write_goal(writes);
    print_bare(&scanned);
    let all: Vec<&Measured> = measured.iter().chain(growth.iter().flatten()).collect();
    print_goal(&all);
}
