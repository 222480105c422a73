//! Runs the library beside the Rust. See README.md.
mod bench;
mod block;
mod create;
mod gen;
mod lent;
mod library;
mod likeness;
mod paths;
mod records;
mod rewriting;
mod rng;
mod run;
mod sample;
mod script;
mod second;
mod states;
mod wire;

use std::{
    fs::File,
    io::{Read, Seek, Write},
    process::{Command, ExitCode, Stdio},
    time::{Duration, Instant},
};

use create::Creations;
use gen::{Quiets, Retired, Rewrites, Seconds, States, World};
use paths::Paths;
use run::{Call, Pair, Same};
use script::Cmd;

const HELP: &str = "\
beside [--seed N] [--seeds N] [--calls N] [--seconds N] [--from LIST] [--damage PERCENT] [--brief] [--every-path] [--no-shrink] [--sums FILE]
    random lists of calls, rewrites, savings and returns on both, compared after each; --seeds: so many seeds, one after the
    other, with so many calls each; --brief: no table, only the paths never taken; --every-path: such a path is a failure;
    --sums: if nothing differs, what was counted goes into a file, for long.sh
beside --short
    every event of at most two bytes, and of three that begin with a kind; every message of at most
    three bytes, rewritten
beside --records
    question 5 of records whose identifiers are chosen, each as it is and with an identifier twice
beside --script FILE
    the commands of a file (- for stdin) on both
beside --sample FILE [--seed N] [--calls N]
    writes a sample of calls with the Rust's answers
beside --check FILE
    a sample on the library
beside --bench [WORD]
    times per call, of the kinds whose names have the word
beside --spin KIND [--ceilings] [--times N]
    the library alone on one kind of call at full tables, for a profiler
";

/// Runs a list of commands; the error tells the difference.
fn replay(list: &[Cmd]) -> Result<(), String> {
    let mut pair = Pair::looking(1);
    for (i, c) in list.iter().enumerate() {
        pair.run(c).map_err(|e| format!("command {}: {e}\n{}", i + 1, c.text()))?;
    }
    Ok(())
}

/// The same in a process of its own, so that a trap is one more difference.
fn replay_apart(list: &[Cmd]) -> Result<(), String> {
    let mut child = Command::new(std::env::current_exe().unwrap())
        .args(["--script", "-"])
        .stdin(Stdio::piped())
        .stdout(Stdio::piped())
        .stderr(Stdio::null())
        .spawn()
        .unwrap();
    let text = script::text(list);
    let mut input = child.stdin.take().unwrap();
    let writer = std::thread::spawn(move || {
        let _ = input.write_all(text.as_bytes());
    });
    let out = child.wait_with_output().unwrap();
    writer.join().unwrap();
    match out.status.code() {
        Some(0) => Ok(()),
        Some(_) => Err(String::from_utf8_lossy(&out.stdout).into()),
        None => Err(format!("ended by a signal: {}", out.status)),
    }
}

fn differs(list: &[Cmd]) -> bool {
    match replay_apart(list) {
        Ok(()) => false,
        Err(e) => !e.contains("script:"),
    }
}

/// Drops commands as long as a difference stays.
fn shrink(mut list: Vec<Cmd>) -> Vec<Cmd> {
    let keep = |c: &Cmd| matches!(c, Cmd::New { .. });
    let mut size = list.len() / 2;
    while size > 0 {
        let mut at = 0;
        while at < list.len() {
            let mut less = list.clone();
            let end = (at + size).min(less.len());
            less.drain(at..end);
            if !list[at..end].iter().any(keep) && differs(&less) {
                list = less;
            } else {
                at += size;
            }
        }
        size /= 2;
    }
    for i in 0..list.len() {
        let mut less = list.clone();
        if let Cmd::Event { rooms, .. } = &mut less[i] {
            if !rooms.is_empty() {
                rooms.clear();
                if differs(&less) {
                    list = less;
                }
            }
        }
    }
    list
}

/// Tells a difference. `calls` were made before its list.
fn report(seed: u64, number: u64, calls: u64, list: Vec<Cmd>, why: &str) {
    let own = list.iter().filter(|c| matches!(c, Cmd::Event { .. })).count() as u64;
    println!("DIFFERENT: seed {seed} list {number} after {} calls: {why}", calls + own);
    if std::env::args().any(|a| a == "--no-shrink") {
        return;
    }
    println!("shrinking {} commands", list.len());
    let least = shrink(list);
    let calls = least.iter().filter(|c| matches!(c, Cmd::Event { .. })).count();
    println!("least list ({} commands, {calls} of them calls):", least.len());
    println!("--------\n{}--------", script::text(&least));
    println!("{}", replay_apart(&least).err().unwrap_or("(no longer)".into()));
}

/// The list that is being run. For other processes a file has its seed, its number and how many calls were made before it, in a line of always as many bytes; with `--commands` each
/// command too, written before it is run.
struct Log {
    list: Vec<Cmd>,
    file: File,
    commands: bool,
}

impl Log {
    fn begin(&mut self, seed: u64, number: u64, calls: u64) {
        self.list.clear();
        if self.commands {
            self.file.set_len(0).unwrap();
        }
        self.file.rewind().unwrap();
        writeln!(self.file, "# seed {seed:<20} list {number:<20} {calls:<20}").unwrap();
    }

    /// The seed, the number and the calls before that the text of such a file tells.
    fn told(text: &str) -> Option<(u64, u64, u64)> {
        let words: Vec<&str> = text.lines().next()?.split_whitespace().collect();
        let ["#", "seed", seed, "list", number, calls] = words[..] else { return None };
        Some((seed.parse().ok()?, number.parse().ok()?, calls.parse().ok()?))
    }

    fn push(&mut self, c: Cmd) -> &Cmd {
        if self.commands {
            self.file.write_all((c.text() + "\n").as_bytes()).unwrap();
        }
        self.list.push(c);
        self.list.last().unwrap()
    }
}

/// Lists that are run one after the other, and what they share.
struct Lists {
    log: Log,
    paths: Paths,
    pair: Pair,
    creations: Creations,
}

impl Lists {
    fn new(log: Log) -> Lists {
        Lists {
            log,
            paths: Paths::default(),
            pair: Pair::default(),
            creations: Creations::default(),
        }
    }

    /// Runs list `number`, `before` calls being made. Answers the number of event calls, or the difference.
    fn run(&mut self, seed: u64, number: u64, before: u64, damage: Option<f64>) -> Same<u64> {
        let mut world = World::of(seed, number);
        if let Some(percent) = damage {
            world.set_damage(percent);
        }
        let mut quiets = Quiets::of(seed, number, &mut world);
        let mut retired = Retired::of(seed, number);
        let mut rewrites = Rewrites::of(seed, number, world.m);
        let mut states = States::of(seed, number);
        let mut seconds = Seconds::of(seed, number);
        let mut calls = 0;
        self.log.begin(seed, number, before);
        self.paths.begins();
        self.paths.creation(self.creations.check(seed ^ number)?);
        for c in quiets.begin(world.begin()) {
            let c = self.log.push(c);
            self.pair.run(c)?;
            self.paths.seconds(&mut self.pair);
            if let Cmd::Together(kind) = c {
                self.paths.by_calls(*kind)?;
            }
        }
        self.rewrite(rewrites.begin())?;
        self.keep(states.begin(&self.pair))?;
        self.go_along(seconds.begin(&self.pair))?;
        while calls < world.calls as u64 + retired.drawn {
            let mut behind = Vec::new();
            let next = world.next(&self.pair);
            let next = quiets.next(&self.pair, next);
            calls += self.calls(retired.next(&world, next), |event, call| {
                world.heard(call);
                behind = rewrites.behind(event, &call.answer.actions);
            })?;
            self.rewrite(behind)?;
            self.keep(states.behind(&self.pair))?;
            self.go_along(seconds.behind(&self.pair))?;
            world.goes_on(&self.pair);
        }
        self.pair.end()?;
        self.paths.ended(quiets.are_there(), calls);
        Ok(calls)
    }

    /// Runs event calls and what stands before them. `heard` gets each call upon a block that is not damaged. Answers how many calls there were.
    fn calls(&mut self, list: Vec<Cmd>, mut heard: impl FnMut(&[u8], &Call)) -> Same<u64> {
        let (pair, paths) = (&mut self.pair, &mut self.paths);
        let mut calls = 0;
        let mut damaged = false;
        for c in list {
            let c = self.log.push(c);
            damaged = match c {
                Cmd::Poke(_) | Cmd::Cut(_) => true,
                Cmd::Undo => false,
                _ => damaged,
            };
            let Cmd::Event { now, event, rooms } = c else {
                pair.run(c)?;
                if let Some(why) = pair.fault {
                    paths.fault(why);
                }
                if let Some(about) = pair.likeness.take() {
                    paths.alike(about);
                }
                continue;
            };
            let seen = pair.panel().see(event);
            let call = pair.run(c)?.expect("an event");
            paths.seconds(pair);
            calls += 1;
            let after = pair.snap.as_deref();
            let out = pair.limits.out;
            let before = call.before.as_deref();
            paths.call(before, seen.as_ref(), *now, &call.answer, out, after, damaged);
            paths.rooms(before, rooms, &call.answer);
            paths.spelled(before, event, &call.answer);
            paths.retired(pair, *now, rooms, event, &call.answer);
            if !damaged {
                heard(event, &call);
            }
        }
        Ok(calls)
    }

    /// Begins with second panels.
    fn go_along(&mut self, list: Vec<Cmd>) -> Same<()> {
        for c in list {
            self.pair.run(self.log.push(c))?;
            self.paths.seconds(&mut self.pair);
        }
        Ok(())
    }

    /// Runs savings and returns.
    fn keep(&mut self, list: Vec<Cmd>) -> Same<()> {
        for c in list {
            self.pair.run(self.log.push(c))?;
            self.paths.kept(&mut self.pair.keeper);
        }
        Ok(())
    }

    /// Runs rewrites.
    fn rewrite(&mut self, list: Vec<Cmd>) -> Same<()> {
        for c in list {
            self.pair.run(self.log.push(c))?;
            self.paths.rewritten(&mut self.pair.rewriter);
        }
        Ok(())
    }
}

/// What a run is asked for.
struct Job<'a> {
    seed: u64,
    seeds: u64,
    from: u64,
    calls: u64,
    seconds: u64,
    damage: Option<f64>,
    brief: bool,
    every_path: bool,
    sums: Option<&'a str>,
}

/// Runs lists until the calls of each seed or the time are spent.
fn work(job: &Job, log: Log) -> ExitCode {
    let start = Instant::now();
    let mut lists = Lists::new(log);
    let (mut all, mut lists_run) = (0, 0);
    let mut shown = start;
    for seed in (job.seed..).take(job.seeds as usize) {
        let mut done = 0;
        let mut number = job.from;
        while done < job.calls && start.elapsed() < Duration::from_secs(job.seconds) {
            match lists.run(seed, number, done, job.damage) {
                Ok(n) => done += n,
                Err(why) => {
                    report(seed, number, done, lists.log.list, &why);
                    return ExitCode::from(1);
                }
            }
            number += 1;
            lists_run += 1;
            if !job.brief && shown.elapsed() > Duration::from_secs(20) {
                shown = Instant::now();
                let (calls, seconds) = (all + done, start.elapsed().as_secs());
                println!("{calls} calls in {lists_run} lists, {seconds} s");
            }
        }
        all += done;
    }
    let paths = &lists.paths;
    print!("{}", paths.table(job.brief));
    let t = start.elapsed().as_secs_f64();
    let (rewrites, states) = (paths.rewrites, paths.states);
    println!("{}", paths.second_panels());
    println!("{}", paths.lists());
    let seeds = match job.seeds {
        1 => format!("seed {}", job.seed),
        n => format!("seeds {} to {}", job.seed, job.seed + n - 1),
    };
    println!("{seeds}: {all} calls and {rewrites} rewrites, {states} savings and returns, in {lists_run} lists, 0 different, {t:.0} s");
    if let Some(file) = job.sums {
        std::fs::write(file, paths.sums()).unwrap();
    }
    if job.every_path && paths.never() > 0 {
        println!("paths that no call took: {}", paths.never());
        return ExitCode::from(1);
    }
    ExitCode::SUCCESS
}

/// Every event of at most two bytes, and those of three whose first is a kind, on one panel.
fn short(mut log: Log) -> ExitCode {
    let mut events = vec![vec![]];
    events.extend((0..=255).map(|a| vec![a]));
    events.extend((0..=65535u16).map(|x| x.to_be_bytes().to_vec()));
    for kind in 0..7u8 {
        events.extend((0..=65535u16).map(|x| [vec![kind], x.to_be_bytes().to_vec()].concat()));
    }
    log.begin(0, 0, 0);
    let mut pair = Pair::default();
    let cfg = [80, 40, 5, 7, 30000, 90000, 1000];
    let mut begin =
        vec![Cmd::New { me: 1, m: 510, cfg }, Cmd::Limits { max: gen::PANELRUN, out: 40960 }];
    begin.extend([2, 3, 300].map(|p| Cmd::Event { now: 0, rooms: vec![], event: wire::up(p) }));
    let calls = events.into_iter().map(|event| Cmd::Event { now: 7, rooms: vec![], event });
    let mut n = 0;
    for c in begin.into_iter().chain(calls) {
        n += 1;
        if let Err(why) = pair.run(log.push(c)) {
            report(0, 0, 0, log.list, &why);
            return ExitCode::from(1);
        }
    }
    if let Err(why) = pair.end() {
        report(0, 0, 0, log.list, &why);
        return ExitCode::from(1);
    }
    println!("short events: {n} commands, 0 different");
    short_messages(log)
}

/// Every message of at most three bytes, rewritten.
fn short_messages(mut log: Log) -> ExitCode {
    let mut pair = Pair::default();
    let mut n = 0;
    for x in 0..=65535u16 {
        let two = x.to_be_bytes();
        let mut messages: Vec<Vec<u8>> = (0..=255).map(|c| vec![two[0], two[1], c]).collect();
        messages.push(two.to_vec());
        if x < 256 {
            messages.push(vec![two[1]]);
        }
        if x == 0 {
            messages.push(vec![]);
        }
        log.begin(0, 0, 0);
        for message in messages {
            n += 1;
            if let Err(why) = pair.run(log.push(Cmd::Rewrite { message, room: 2 })) {
                report(0, 0, 0, log.list, &why);
                return ExitCode::from(1);
            }
        }
        if let Err(why) = pair.end() {
            report(0, 0, 0, log.list, &why);
            return ExitCode::from(1);
        }
        pair.rewriter.about.clear();
    }
    let rewrites = pair.rewriter.calls;
    println!("short messages: {n} in {rewrites} rewrites, 0 different");
    ExitCode::SUCCESS
}

/// Starts `work` in a process of its own; if that does not end by itself, shrinks the list that it ran.
fn watch(args: &[String]) -> ExitCode {
    let file = std::env::temp_dir().join(format!("beside-{}.txt", std::process::id()));
    let mut work = Command::new(std::env::current_exe().unwrap());
    work.arg("--work").arg(&file).args(args);
    let status = work.status().unwrap();
    if let Some(code @ (0 | 1)) = status.code() {
        let _ = std::fs::remove_file(&file);
        return ExitCode::from(code as u8);
    }
    let text = std::fs::read_to_string(&file).unwrap();
    let (seed, number, calls) = Log::told(&text).unwrap_or_default();
    // That list alone, once more: the first value of an argument counts.
    let mut again = Command::new(std::env::current_exe().unwrap());
    again.arg("--work").arg(&file).arg("--commands");
    again.args(["--seed", &seed.to_string(), "--seeds", "1"]);
    again.args(["--from", &number.to_string(), "--calls", "1"]).args(args);
    let _ = again.stdout(Stdio::null()).stderr(Stdio::null()).status();
    let text = std::fs::read_to_string(&file).unwrap();
    let _ = std::fs::remove_file(&file);
    match script::parse(&text) {
        Ok(list) => report(seed, number, calls, list, &status.to_string()),
        Err(e) => println!("{status}: {e}"),
    }
    ExitCode::from(1)
}

fn main() -> ExitCode {
    let args: Vec<String> = std::env::args().skip(1).collect();
    let value = |name: &str| -> Option<&String> {
        let i = args.iter().position(|a| a == name)?;
        args.get(i + 1)
    };
    let number = |name: &str, other: u64| -> u64 {
        value(name).map_or(other, |v| v.parse().expect("a number"))
    };
    if args.iter().any(|a| a == "--help" || a == "-h") {
        print!("{HELP}");
        return ExitCode::SUCCESS;
    }
    if let Some(file) = value("--script") {
        let mut text = String::new();
        if file == "-" {
            std::io::stdin().read_to_string(&mut text).unwrap();
        } else {
            text = std::fs::read_to_string(file).unwrap();
        }
        return match script::parse(&text).and_then(|l| replay(&l)) {
            Ok(()) => ExitCode::SUCCESS,
            Err(e) => {
                println!("{e}");
                ExitCode::from(1)
            }
        };
    }
    let seed = number("--seed", 1);
    if let Some(file) = value("--sample") {
        sample::write(file, seed, number("--calls", 600) as usize);
        return ExitCode::SUCCESS;
    }
    if let Some(file) = value("--check") {
        return match sample::check(file) {
            Ok((n, states)) => {
                println!("{n} calls, {states} states, 0 different");
                ExitCode::SUCCESS
            }
            Err(e) => {
                println!("{e}");
                ExitCode::from(1)
            }
        };
    }
    if args.iter().any(|a| a == "--records") {
        return match records::check() {
            Ok((asked, yes)) => {
                println!("records whose identifiers are chosen: {asked} asked, {yes} of them whole, 0 different");
                ExitCode::SUCCESS
            }
            Err(e) => {
                println!("DIFFERENT: {e}");
                ExitCode::from(1)
            }
        };
    }
    if let Some(name) = value("--spin") {
        let ceilings = args.iter().any(|a| a == "--ceilings");
        bench::spin(name, ceilings, number("--times", 1_000_000));
        return ExitCode::SUCCESS;
    }
    if args.iter().any(|a| a == "--bench") {
        bench::run(value("--bench").map(|w| w.as_str()));
        return ExitCode::SUCCESS;
    }
    if let Some(file) = value("--work") {
        let file = File::create(file).unwrap();
        let log = Log { list: Vec::new(), file, commands: args.iter().any(|a| a == "--commands") };
        if args.iter().any(|a| a == "--short") {
            return short(log);
        }
        let timed = value("--seconds").is_some();
        let job = Job {
            seed,
            seeds: number("--seeds", 1).max(1),
            from: number("--from", 0),
            calls: number("--calls", if timed { u64::MAX } else { 100_000 }),
            seconds: number("--seconds", u64::MAX / 4),
            damage: value("--damage").map(|v| v.parse().expect("a number")),
            brief: args.iter().any(|a| a == "--brief"),
            every_path: args.iter().any(|a| a == "--every-path"),
            sums: value("--sums").map(|s| s.as_str()),
        };
        return work(&job, log);
    }
    watch(&args)
}
