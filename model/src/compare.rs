//! Plays a script on the model and on the real thing, finds the first op
//! whose output differs, and shortens a script that differs.

use crate::doctor::CHANGE;
use crate::script::{bytes_of, describe, describe_doctor, dump_place, tape_place, Figures, Op, Player};
use crate::stick::Phase;
use std::io::{Read, Write};
use std::process::{Command, Stdio};
use std::sync::mpsc;
use std::time::{Duration, Instant};

/// Something that plays a whole script and gives its whole output.
pub trait Real {
    fn run(&mut self, script: &[u8]) -> Result<Vec<u8>, String>;
}

/// The model itself, to try the harness.
pub struct Itself;

impl Real for Itself {
    fn run(&mut self, script: &[u8]) -> Result<Vec<u8>, String> {
        Ok(crate::script::play(script))
    }
}

/// A program that plays the script on its standard input, a new process for
/// each script.
pub struct Program {
    /// A command line for the shell.
    pub command: String,
    /// A process that takes longer is stopped; what it wrote is compared.
    pub limit: Duration,
}

impl Real for Program {
    fn run(&mut self, script: &[u8]) -> Result<Vec<u8>, String> {
        let mut child = Command::new("sh")
            .args(["-c", &format!("exec {}", self.command)])
            .stdin(Stdio::piped())
            .stdout(Stdio::piped())
            .stderr(Stdio::piped())
            .spawn()
            .map_err(|error| format!("cannot start a shell: {error}"))?;
        let mut input = child.stdin.take().expect("piped");
        let output = child.stdout.take().expect("piped");
        let errors = child.stderr.take().expect("piped");
        let script = script.to_vec();
        // A run that ends early closes its input: not this side's trouble.
        std::thread::spawn(move || drop(input.write_all(&script)));
        let output = reader(output);
        let errors = reader(errors);
        let mut written = Vec::new();
        let end = Instant::now() + self.limit;
        loop {
            match output.recv_timeout(end.saturating_duration_since(Instant::now())) {
                Ok(piece) => written.extend(piece),
                Err(mpsc::RecvTimeoutError::Disconnected) => break,
                Err(mpsc::RecvTimeoutError::Timeout) => {
                    let _ = child.kill();
                    break;
                }
            }
        }
        let status = child.wait().map_err(|error| error.to_string())?;
        // 126 and 127 are the shell's: the program was not started.
        if written.is_empty() && matches!(status.code(), Some(126 | 127)) {
            let said: Vec<u8> = errors.iter().flatten().collect();
            return Err(format!("cannot start {}: {}", self.command, String::from_utf8_lossy(&said).trim()));
        }
        Ok(written)
    }
}

/// Reads a stream to its end, piece by piece, in a thread of its own.
fn reader(mut stream: impl Read + Send + 'static) -> mpsc::Receiver<Vec<u8>> {
    let (sender, receiver) = mpsc::channel();
    std::thread::spawn(move || {
        let mut piece = vec![0; 1 << 16];
        while let Ok(length @ 1..) = stream.read(&mut piece) {
            if sender.send(piece[..length].to_vec()).is_err() {
                break;
            }
        }
    });
    receiver
}

/// The first op whose output is not the model's.
#[derive(Clone, Debug, PartialEq, Eq)]
pub struct Difference {
    /// The op's place in the script; the script's length if more was written
    /// after its end.
    pub place: usize,
    /// What the model and the real thing wrote for it, in words.
    pub model: String,
    pub real: String,
    /// Whether the real output is right as far as it goes, but ends here.
    pub ends: bool,
}

/// Plays the ops on both sides.
pub fn compare(ops: &[Op], real: &mut dyn Real) -> Result<(Option<Difference>, Figures), String> {
    let got = real.run(&bytes_of(ops))?;
    let mut player = Player::new();
    let mut at = 0;
    let mut expected = Vec::new();
    for (place, op) in ops.iter().enumerate() {
        expected.clear();
        let more = player.play(op, &mut expected);
        let rest = &got[at.min(got.len())..];
        let written = &rest[..rest.len().min(op.output(rest))];
        if written != expected {
            let (model, real) = in_words(op, &expected, written);
            let ends = expected.starts_with(written);
            return Ok((Some(Difference { place, model, real, ends }), player.figures));
        }
        at += expected.len();
        if !more {
            break;
        }
    }
    let difference = (got.len() > at).then(|| Difference {
        place: ops.len(),
        model: "the end of the output".to_string(),
        real: format!("{} bytes more", got.len() - at),
        ends: false,
    });
    Ok((difference, player.figures))
}

/// Two outputs of one op in words; of two dumps, the places that differ, and of
/// two lists of changes what comes behind those that are the same.
fn in_words(op: &Op, expected: &[u8], written: &[u8]) -> (String, String) {
    let name = match op {
        Op::Dump => dump_place,
        Op::DumpTape => tape_place,
        Op::Doctor { .. } if written.len() >= op.output(written) => {
            let changes = expected[3..].chunks(CHANGE).zip(written[3..].chunks(CHANGE));
            let same = changes.take_while(|(one, other)| one == other).count();
            return (describe_doctor(expected, same), describe_doctor(written, same));
        }
        _ => return (describe(op, expected), describe(op, written)),
    };
    if written.len() != expected.len() {
        return (describe(op, expected), describe(op, written));
    }
    const SHOWN: usize = 8;
    let places: Vec<usize> = (0..expected.len()).filter(|&at| expected[at] != written[at]).collect();
    let list = |bytes: &[u8]| {
        let shown = places.iter().take(SHOWN);
        let mut words: Vec<String> = shown.map(|&at| format!("{} {:02X}", name(at), bytes[at])).collect();
        if places.len() > SHOWN {
            words.push(format!("and {} places more", places.len() - SHOWN));
        }
        words.join("; ")
    };
    (list(expected), list(written))
}

// ---- shortening ----

/// How long a script may be shortened.
pub struct Budget {
    pub trials: usize,
    pub end: Instant,
}

/// Shortens a script that differs: whole requests first, then parts of every
/// size down to one op, then bytes and counts to the smallest that still
/// differ. What comes after the first difference is always cut off.
pub fn shorten(ops: &[Op], real: &mut dyn Real, budget: &mut Budget) -> Vec<Op> {
    let mut best = ops.to_vec();
    keep_if_differs(&mut best, ops.to_vec(), real, budget);
    loop {
        let before = best.clone();
        by_requests(&mut best, real, budget);
        by_parts(&mut best, real, budget);
        by_values(&mut best, real, budget);
        if best == before || budget.is_spent() {
            return best;
        }
    }
}

impl Budget {
    fn is_spent(&self) -> bool {
        self.trials == 0 || Instant::now() >= self.end
    }
}

/// Takes the trial for the best if it differs, cut after the first difference.
fn keep_if_differs(best: &mut Vec<Op>, mut trial: Vec<Op>, real: &mut dyn Real, budget: &mut Budget) -> bool {
    if budget.is_spent() {
        return false;
    }
    budget.trials -= 1;
    let Ok((Some(difference), _)) = compare(&trial, real) else {
        return false;
    };
    // A program that breaks down may lose what it had still to write: then a
    // later op may be the cause, and only a trial tells.
    let cut = trial[..trial.len().min(difference.place + 1)].to_vec();
    if !difference.ends || matches!(compare(&cut, real), Ok((Some(_), _))) {
        trial = cut;
    }
    *best = trial;
    true
}

/// Tries without each request, that is all ops on a port from the first byte
/// of a message to the last byte of its reply; the latest first.
fn by_requests(best: &mut Vec<Op>, real: &mut dyn Real, budget: &mut Budget) {
    let mut last = usize::MAX;
    loop {
        let requests = requests(best);
        let Some(request) = requests.iter().flatten().copied().filter(|&request| request < last).max() else {
            return;
        };
        last = request;
        let kept = best.iter().zip(&requests).filter(|(_, of)| **of != Some(request));
        let trial = kept.map(|(op, _)| op.clone()).collect();
        keep_if_differs(best, trial, real, budget);
    }
}

/// For each op the number of the request that it is about, counted from the
/// first of either port.
fn requests(ops: &[Op]) -> Vec<Option<usize>> {
    let mut player = Player::new();
    let mut output = Vec::new();
    let mut current = [None; 2];
    let mut count = 0;
    let mut numbers = Vec::new();
    for op in ops {
        let port = op.port().filter(|port| *port < 2).map(usize::from);
        if let Some(port) = port {
            let idle = matches!(&player.stick.ports[port].phase, Phase::Gathering(message) if message.is_empty());
            if idle && matches!(op, Op::Take { .. }) {
                current[port] = Some(count);
                count += 1;
            }
        }
        numbers.push(port.and_then(|port| current[port]));
        output.clear();
        player.play(op, &mut output);
    }
    numbers
}

/// Tries without each part, from half the script down to one op.
fn by_parts(best: &mut Vec<Op>, real: &mut dyn Real, budget: &mut Budget) {
    let mut length = best.len() / 2;
    while length > 0 && !budget.is_spent() {
        let mut end = best.len();
        while end > 0 {
            let start = end.saturating_sub(length);
            let mut trial = best[..start].to_vec();
            trial.extend_from_slice(&best[end..]);
            keep_if_differs(best, trial, real, budget);
            end = start.min(best.len());
        }
        length /= 2;
    }
}

/// Tries each byte as 0, many ticks as one, and of bytes written each half.
fn by_values(best: &mut Vec<Op>, real: &mut dyn Real, budget: &mut Budget) {
    let mut place = 0;
    while place < best.len() {
        let smaller = match best[place] {
            Op::Take { port, byte: 1.. } => vec![Op::Take { port, byte: 0 }],
            Op::Ticks { port, count: 2.. } => vec![Op::Tick { port }],
            Op::Doctor { image: 1.. } => vec![Op::Doctor { image: 0 }],
            Op::Write { buffer, at, ref bytes } if bytes.len() > 1 => {
                let (first, second) = bytes.split_at(bytes.len() / 2);
                let behind = at.saturating_add(first.len() as u32).min(0xFF_FFFF);
                vec![
                    Op::Write { buffer, at, bytes: first.to_vec() },
                    Op::Write { buffer, at: behind, bytes: second.to_vec() },
                ]
            }
            _ => Vec::new(),
        };
        for op in smaller {
            let mut trial = best.clone();
            trial[place] = op;
            if keep_if_differs(best, trial, real, budget) {
                break;
            }
        }
        place += 1;
    }
}
