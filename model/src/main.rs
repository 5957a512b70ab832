//! `compare`: random conversations, and damaged diskettes for the doctor,
//! played by `play` and by the model, must give the same bytes.

use model::compare::{compare, shorten, Budget, Difference, Itself, Program, Real};
use model::images::{self, CONVERSATIONS, KINDS};
use model::random::conversation;
use model::script::{bytes_of, from_text, ops_of, to_text, Figures, Op, Player, DISK_STATUSES, TAPE_STATUSES};
use std::io::{IsTerminal, Read, Write};
use std::process::ExitCode;
use std::sync::atomic::{AtomicBool, AtomicU64, Ordering};
use std::sync::Mutex;
use std::time::{Duration, Instant};

const HELP: &str = "\
compare: random conversations on the stick, played by `play` and by the model

  compare --play COMMAND [options]   compare with the program that COMMAND starts
                                     (a program and its words, for the shell)
  compare --self [options]           the model against itself, to try the harness
  compare --show [--seed S] [--long] write the script of a seed, compare nothing
                                     (with --doctor one of the doctor's)
  compare --serve                    be `play`, over the model: script in, output out

options
  --scripts N      how many scripts (2,000; with --long 20,000; with --doctor 40)
  --seed S         the first script's seed (1); the next has S + 1, and so on
  --long           longer scripts, and more of them
  --doctor         only the doctor's scripts, of 100 damaged diskettes each;
                   without it one for each 50 scripts comes behind them
  --script FILE    compare on this script in readable form instead (- is the input)
  --batch N        scripts played by one process (1)
  --jobs N         processes at once (as many as the machine has processors)
  --limit SECONDS  the longest that one process may take (120)
  --help           this text

A script has one op a line: fresh, take PORT BYTES, tick PORT, tick PORT x N,
give PORT, give PORT x N, press CODE, lend BUFFER N, write BUFFER AT BYTES,
dump, dump tape, doctor IMAGE, raw BYTES.
The end status is 0 for no difference, 1 for a difference, or if of 20 doctor's
scripts or more some kind of image was not seen, 2 for trouble.";

/// So many of the doctor's scripts must see every kind of image.
const SEE_ALL: u64 = 20;

struct Options {
    play: Option<String>,
    itself: bool,
    show: bool,
    serve: bool,
    scripts: Option<u64>,
    seed: u64,
    long: bool,
    doctor: bool,
    script: Option<String>,
    batch: u64,
    jobs: usize,
    limit: Duration,
}

fn options() -> Result<Option<Options>, String> {
    let mut options = Options {
        play: None,
        itself: false,
        show: false,
        serve: false,
        scripts: None,
        seed: 1,
        long: false,
        doctor: false,
        script: None,
        batch: 1,
        jobs: std::thread::available_parallelism().map_or(1, usize::from),
        limit: Duration::from_secs(120),
    };
    let mut words = std::env::args().skip(1);
    while let Some(word) = words.next() {
        let mut operand = || words.next().ok_or(format!("{word} needs a word after it"));
        let number = |text: String| -> Result<u64, String> {
            text.replace([',', '_'], "").parse().map_err(|_| format!("not a number: {text}"))
        };
        match word.as_str() {
            "--play" => options.play = Some(operand()?),
            "--self" => options.itself = true,
            "--show" => options.show = true,
            "--serve" => options.serve = true,
            "--scripts" => options.scripts = Some(number(operand()?)?),
            "--seed" => options.seed = number(operand()?)?,
            "--long" => options.long = true,
            "--doctor" => options.doctor = true,
            "--script" => options.script = Some(operand()?),
            "--batch" => options.batch = number(operand()?)?.max(1),
            "--jobs" => options.jobs = number(operand()?)?.max(1) as usize,
            "--limit" => options.limit = Duration::from_secs(number(operand()?)?),
            "--help" | "-h" => return Ok(None),
            _ => return Err(format!("unknown word: {word}")),
        }
    }
    let doings = [options.play.is_some(), options.itself, options.show, options.serve];
    match doings.iter().filter(|doing| **doing).count() {
        1 => Ok(Some(options)),
        _ => Err("one of --play, --self, --show and --serve is needed".to_string()),
    }
}

fn main() -> ExitCode {
    let options = match options() {
        Ok(Some(options)) => options,
        Ok(None) => {
            print(&format!("{HELP}\n"));
            return ExitCode::SUCCESS;
        }
        Err(trouble) => return fail(&format!("{trouble} (--help tells more)")),
    };
    if options.serve {
        return serve();
    }
    if options.show {
        let script = Script { doctor: options.doctor, seed: options.seed };
        print(&to_text(&script.ops(options.long)));
        return ExitCode::SUCCESS;
    }
    let outcome = match &options.script {
        Some(file) => compare_file(&options, file),
        None => compare_all(&options),
    };
    match outcome {
        Ok(true) => ExitCode::SUCCESS,
        Ok(false) => ExitCode::from(1),
        Err(trouble) => fail(&trouble),
    }
}

fn fail(trouble: &str) -> ExitCode {
    eprintln!("compare: {trouble}");
    ExitCode::from(2)
}

/// Writes to standard output; a reader that has gone is no trouble.
fn print(text: &str) {
    let _ = std::io::stdout().lock().write_all(text.as_bytes());
}

fn real(options: &Options) -> Box<dyn Real> {
    match &options.play {
        Some(command) => Box::new(Program { command: command.clone(), limit: options.limit }),
        None => Box::new(Itself),
    }
}

/// `play` over the model: answers what it has read before it reads on.
fn serve() -> ExitCode {
    let (mut input, mut output) = (std::io::stdin().lock(), std::io::stdout().lock());
    let (mut player, mut unread, mut piece) = (Player::new(), Vec::new(), vec![0; 1 << 16]);
    loop {
        let length = match input.read(&mut piece) {
            Ok(0) => return ExitCode::SUCCESS,
            Ok(length) => length,
            Err(trouble) => return fail(&trouble.to_string()),
        };
        unread.extend_from_slice(&piece[..length]);
        let (mut written, mut rest) = (Vec::new(), Vec::new());
        let mut going = true;
        for op in ops_of(&unread) {
            match op {
                // What is cut here may go on in the next piece.
                Op::Raw(bytes) if is_cut(&bytes) => rest = bytes,
                op => going = player.play(&op, &mut written),
            }
        }
        unread = rest;
        if output.write_all(&written).and_then(|()| output.flush()).is_err() || !going {
            return ExitCode::SUCCESS;
        }
    }
}

/// Whether the bytes begin an op.
fn is_cut(bytes: &[u8]) -> bool {
    matches!(bytes[0], b'T' | b'K' | b'G' | b'P' | b'X' | b'L' | b'W' | b'R')
}

// ---- comparing ----

/// Compares on one script in readable form.
fn compare_file(options: &Options, file: &str) -> Result<bool, String> {
    let text = if file == "-" {
        let mut text = String::new();
        std::io::stdin().read_to_string(&mut text).map(|_| text)
    } else {
        std::fs::read_to_string(file)
    };
    let text = text.map_err(|error| format!("{file}: {error}"))?;
    let ops = from_text(&text).map_err(|error| format!("{file}: {error}"))?;
    let mut real = real(options);
    let (difference, mut figures) = compare(&ops, real.as_mut())?;
    figures.scripts = 1;
    print(&in_figures(&figures));
    match difference {
        None => Ok(true),
        Some(difference) => {
            print(&report(&ops, &difference, real.as_mut()));
            Ok(false)
        }
    }
}

/// One of the scripts: a conversation, or one of the doctor's, and its seed.
#[derive(Clone, Copy, PartialEq, Eq, PartialOrd, Ord)]
struct Script {
    doctor: bool,
    seed: u64,
}

impl Script {
    fn ops(self, long: bool) -> Vec<Op> {
        match self.doctor {
            true => images::script(self.seed),
            false => conversation(self.seed, long),
        }
    }
}

/// How many scripts there are: the conversations come first.
struct Scripts {
    conversations: u64,
    doctors: u64,
}

impl Scripts {
    fn of(options: &Options) -> Scripts {
        if options.doctor {
            return Scripts { conversations: 0, doctors: options.scripts.unwrap_or(40) };
        }
        let conversations = options.scripts.unwrap_or(if options.long { 20_000 } else { 2_000 });
        Scripts { conversations, doctors: conversations / CONVERSATIONS }
    }

    fn count(&self) -> u64 {
        self.conversations + self.doctors
    }

    /// The script at a place; each sort counts its seeds from the first on.
    fn at(&self, place: u64, first: u64) -> Script {
        let doctor = place >= self.conversations;
        let number = if doctor { place - self.conversations } else { place };
        Script { doctor, seed: first.wrapping_add(number) }
    }
}

/// What the workers share.
struct Work {
    next: AtomicU64,
    stop: AtomicBool,
    figures: Mutex<Figures>,
    /// The ops that differ, and their script.
    found: Mutex<Option<(Script, Vec<Op>)>>,
    trouble: Mutex<Option<String>>,
}

/// Compares on the scripts of all seeds; true if none differs, and of enough
/// of the doctor's scripts each kind of image was seen.
fn compare_all(options: &Options) -> Result<bool, String> {
    let scripts = Scripts::of(options);
    let work = Work {
        next: AtomicU64::new(0),
        stop: AtomicBool::new(false),
        figures: Mutex::default(),
        found: Mutex::default(),
        trouble: Mutex::default(),
    };
    let begin = Instant::now();
    std::thread::scope(|scope| {
        let workers: Vec<_> = (0..options.jobs).map(|_| scope.spawn(|| worker(options, &scripts, &work))).collect();
        show_progress(scripts.count(), &work, || workers.iter().all(|worker| worker.is_finished()));
    });
    if let Some(trouble) = work.trouble.into_inner().expect("no worker panics") {
        return Err(trouble);
    }
    let figures = work.figures.into_inner().expect("no worker panics");
    print(&in_figures(&figures));
    let seconds = begin.elapsed().as_secs_f64();
    print(&format!("{seconds:.1} s, {:.0} scripts a second\n", figures.scripts as f64 / seconds.max(0.001)));
    let Some((script, ops)) = work.found.into_inner().expect("no worker panics") else {
        print(&format!("no difference (seeds {} to", options.seed));
        let last = |count: u64| options.seed.wrapping_add(count.max(1) - 1);
        match (scripts.conversations, scripts.doctors) {
            (0, doctors) => print(&format!(" {} of the doctor's)\n", last(doctors))),
            (conversations, 0) => print(&format!(" {})\n", last(conversations))),
            (conversations, doctors) => {
                print(&format!(" {}, and to {} of the doctor's)\n", last(conversations), last(doctors)));
            }
        }
        let unseen: Vec<&str> = KINDS.into_iter().filter(|kind| !figures.kinds.contains_key(kind)).collect();
        if scripts.doctors >= SEE_ALL && !unseen.is_empty() {
            print(&format!("NOT SEEN by the doctor: {}\n", unseen.join(", ")));
            return Ok(false);
        }
        return Ok(true);
    };
    let mut real = real(options);
    let (seed, doctor) = (script.seed, if script.doctor { " --doctor" } else { "" });
    let long = if options.long && !script.doctor { " --long" } else { "" };
    print(&format!("\nDIFFERENCE at seed {seed} (again: --seed {seed} --scripts 1{doctor}{long})\n"));
    match compare(&ops, real.as_mut())? {
        (Some(difference), _) => print(&report(&ops, &difference, real.as_mut())),
        (None, _) => print("it did not come again when the same script was played once more\n"),
    }
    Ok(false)
}

fn worker(options: &Options, scripts: &Scripts, work: &Work) {
    let mut real = real(options);
    while !work.stop.load(Ordering::Relaxed) {
        let from = work.next.fetch_add(options.batch, Ordering::Relaxed);
        if from >= scripts.count() {
            return;
        }
        let places = from..scripts.count().min(from + options.batch);
        for (numbers, ops) in batches(places.map(|place| scripts.at(place, options.seed)), options.long) {
            let mut figures = Figures { scripts: ops.len() as u64, ..Figures::default() };
            let whole = joined(&ops);
            match compare(&whole, real.as_mut()) {
                Ok((difference, played)) => {
                    figures.add(&played);
                    work.figures.lock().expect("no worker panics").add(&figures);
                    if difference.is_some() {
                        let mut found = work.found.lock().expect("no worker panics");
                        // The script alone, if it differs alone.
                        let alone = numbers.iter().zip(&ops).find_map(|(number, script)| {
                            let differs = matches!(compare(script, real.as_mut()), Ok((Some(_), _)));
                            differs.then(|| (*number, script.clone()))
                        });
                        let this = alone.unwrap_or((numbers[0], whole));
                        if found.as_ref().is_none_or(|(earlier, _)| this.0 < *earlier) {
                            *found = Some(this);
                        }
                        work.stop.store(true, Ordering::Relaxed);
                    }
                }
                Err(trouble) => {
                    *work.trouble.lock().expect("no worker panics") = Some(trouble);
                    work.stop.store(true, Ordering::Relaxed);
                }
            }
        }
    }
}

/// Scripts by batches. One that ends its run is the last of its batch, and each
/// of the doctor's is a batch of its own.
fn batches(scripts: impl Iterator<Item = Script>, long: bool) -> Vec<(Vec<Script>, Vec<Vec<Op>>)> {
    let mut batches: Vec<(Vec<Script>, Vec<Vec<Op>>)> = Vec::new();
    let mut open = false;
    for script in scripts {
        let ops = script.ops(long);
        let ends = script.doctor || matches!(ops.last(), Some(Op::Raw(_)));
        match batches.last_mut() {
            Some((numbers, batch)) if open && !script.doctor => {
                numbers.push(script);
                batch.push(ops);
            }
            _ => batches.push((vec![script], vec![ops])),
        }
        open = !ends;
    }
    batches
}

/// Scripts one after another, each after a fresh start.
fn joined(scripts: &[Vec<Op>]) -> Vec<Op> {
    let mut ops = scripts[0].clone();
    for script in &scripts[1..] {
        ops.push(Op::Fresh);
        ops.extend_from_slice(script);
    }
    ops
}

/// Says on standard error how far the work is, until it is done.
fn show_progress(scripts: u64, work: &Work, done: impl Fn() -> bool) {
    let terminal = std::io::stderr().is_terminal();
    let pause = Duration::from_secs(if terminal { 1 } else { 10 });
    let mut said = Instant::now();
    while !done() {
        std::thread::sleep(Duration::from_millis(10));
        if said.elapsed() >= pause {
            said = Instant::now();
            let figures = work.figures.lock().expect("no worker panics");
            let line =
                format!("{} of {} scripts, {} ticks", commas(figures.scripts), commas(scripts), commas(figures.ticks));
            drop(figures);
            if terminal {
                eprint!("\r{line}\x1B[K");
            } else {
                eprintln!("{line}");
            }
        }
    }
    if terminal {
        eprint!("\r\x1B[K");
    }
}

// ---- what is said at the end ----

fn commas(number: u64) -> String {
    let digits = number.to_string();
    let groups: Vec<&str> =
        digits.as_bytes().rchunks(3).rev().map(|group| std::str::from_utf8(group).expect("digits")).collect();
    groups.join(",")
}

fn in_figures(figures: &Figures) -> String {
    let mut text = format!(
        "compared {} scripts, {} calls, {} of them ticks\n",
        commas(figures.scripts),
        commas(figures.calls),
        commas(figures.ticks)
    );
    text.push_str("answers:");
    for (answer, count) in figures.answers.iter().enumerate().filter(|(_, count)| **count > 0) {
        text.push_str(&format!(" {answer}: {},", commas(*count)));
    }
    text.pop();
    text.push_str("\nreplies:");
    for ((tag, status), count) in &figures.replies {
        text.push_str(&format!(" {tag:02X}/{status:02X}: {},", commas(*count)));
    }
    text.pop();
    for (device, statuses, counts, waits) in [
        ("C", &TAPE_STATUSES[..], &figures.tape, figures.tape_waits),
        ("D", &DISK_STATUSES, &figures.disk, figures.disk_waits),
    ] {
        text.push_str(&format!("\nof {device}:"));
        for status in statuses {
            let count = counts.get(status).copied().unwrap_or(0);
            text.push_str(&format!(" {status:02X}: {},", commas(count)));
        }
        text.push_str(&format!(" answered 8: {}", commas(waits)));
    }
    text.push_str(&format!("\nof the doctor, {} images:", commas(figures.doctors)));
    for kind in KINDS {
        let count = figures.kinds.get(kind).copied().unwrap_or(0);
        text.push_str(&format!(" {kind}: {},", commas(count)));
    }
    text.pop();
    text.push('\n');
    text
}

/// The difference, then the shortest script found for it.
fn report(ops: &[Op], difference: &Difference, real: &mut dyn Real) -> String {
    let mut text = told(ops, difference);
    eprintln!("shortening a script of {} ops ...", ops.len());
    let mut budget = Budget { trials: 5_000, end: Instant::now() + Duration::from_secs(120) };
    let short = shorten(ops, real, &mut budget);
    if let Ok((Some(difference), _)) = compare(&short, real) {
        text.push_str(&format!(
            "\nthe shortest script found, {} ops ({} bytes):\n\n",
            short.len(),
            bytes_of(&short).len()
        ));
        text.push_str(&to_text(&short));
        text.push_str(&told(&short, &difference));
    }
    text
}

fn told(ops: &[Op], difference: &Difference) -> String {
    let op = match ops.get(difference.place) {
        Some(op) => to_text(std::slice::from_ref(op)),
        None => "the end\n".to_string(),
    };
    format!("# op {}: {op}#   model: {}\n#   real:  {}\n", difference.place, difference.model, difference.real)
}
