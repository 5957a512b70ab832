//! Runs worked examples in the notation of the readings of document 02, byte for byte as a script of `play`:
//!
//! - `0> m < r (t)`: on port 0 the message m is taken, ticked t times (1 where not given) until its reply is made, and the reply
//!   r is given. `0> m`: taken only. `0> m ! 8`: taken and ticked once, with that answer. `0< r`: given only.
//! - `open 0 02 08 00 43 3A`: on port 0 LOAD of 43 3A at address 0, then OPEN of block 02 there with AUX1 08 and AUX2 00.
//! - `P 3F = 00`: an op with its operands and what it writes. `C[33000..33004] = 02 00 00 03`: of that these bytes.
//! - `00x3` is three bytes 00; words behind three blanks are comment. After a blank line an example begins on buffers of zeros.

use model::random::{call, load};
use model::script::{ops_of, Player};
use model::stick::OPEN;

pub fn run(text: &str) {
    let mut player = Player::new();
    for (number, line) in text.lines().enumerate() {
        let line = line.split("   ").next().unwrap_or("").trim();
        if line.is_empty() {
            player = Player::new();
            continue;
        }
        run_line(&mut player, line).unwrap_or_else(|trouble| panic!("line {}: {line}\n{trouble}", number + 1));
    }
}

/// Bytes in hexadecimal, `00x3` three of them.
fn bytes(text: &str) -> Vec<u8> {
    let several = |word: &str| {
        let (byte, times) = word.split_once('x').unwrap_or((word, "1"));
        let byte = u8::from_str_radix(byte, 16).expect("a byte");
        vec![byte; times.parse().expect("a number")]
    };
    text.split_whitespace().flat_map(several).collect()
}

/// Plays the script's bytes: what is written.
fn play(player: &mut Player, script: &[u8]) -> Vec<u8> {
    let mut output = Vec::new();
    for op in ops_of(script) {
        assert!(player.play(&op, &mut output), "an op of play");
    }
    output
}

fn same(what: &str, written: &[u8], expected: &[u8]) -> Result<(), String> {
    if written == expected {
        return Ok(());
    }
    let place = written.iter().zip(expected).position(|(one, other)| one != other);
    Err(format!(
        "{what}: {} bytes written, {} expected, different at {place:?}\n{:02X?}\n{:02X?}",
        written.len(),
        expected.len(),
        &written[..written.len().min(20)],
        &expected[..expected.len().min(20)]
    ))
}

fn take(player: &mut Player, port: u8, message: &[u8]) -> Result<(), String> {
    let script: Vec<u8> = message.iter().flat_map(|&byte| [b'T', port, byte]).collect();
    same("take", &play(player, &script), &vec![0; message.len()])
}

/// By `X` of 65,535, again while there are more.
fn tick(player: &mut Player, port: u8, mut ticks: u32) -> Result<(), String> {
    loop {
        let part = ticks.min(0xFFFF);
        let [low, high] = (part as u16).to_le_bytes();
        same("ticks", &play(player, &[b'X', port, 0xFF, 0xFF]), &[low, high, 0])?;
        ticks -= part;
        if ticks == 0 {
            return Ok(());
        }
    }
}

fn give(player: &mut Player, port: u8, reply: &[u8]) -> Result<(), String> {
    let script: Vec<u8> = reply.iter().flat_map(|_| [b'G', port]).collect();
    let expected: Vec<u8> = reply.iter().flat_map(|&byte| [0, byte]).collect();
    same("reply", &play(player, &script), &expected)
}

fn ask(player: &mut Player, port: u8, message: &[u8], ticks: u32, reply: &[u8]) -> Result<(), String> {
    take(player, port, message)?;
    tick(player, port, ticks)?;
    give(player, port, reply)?;
    match player.stick.ports[usize::from(port)].phase.number() {
        0 => Ok(()),
        phase => Err(format!("phase {phase} after the reply")),
    }
}

fn run_line(player: &mut Player, line: &str) -> Result<(), String> {
    if let Some(rest) = line.strip_prefix("open ") {
        let rest = bytes(rest);
        let (port, block, aux1, aux2, specification) = (rest[0], rest[1], rest[2], rest[3], &rest[4..]);
        ask(player, port, &load(0, specification), 1, &[0x91, 1, 0, 1])?;
        let open = call(block, OPEN, 0, 0, [aux1, aux2, 0]);
        return ask(player, port, &open, 1, &[0x90, 4, 0, 1, 0, 0, 0]);
    }
    if let [port @ b'0'..=b'1', way @ (b'>' | b'<'), ..] = *line.as_bytes() {
        let (port, rest) = (port - b'0', &line[2..]);
        if way == b'<' {
            return give(player, port, &bytes(rest));
        }
        if let Some((message, answer)) = rest.split_once('!') {
            take(player, port, &bytes(message))?;
            return same("tick", &play(player, &[b'K', port]), &bytes(answer));
        }
        let Some((message, rest)) = rest.split_once('<') else {
            return take(player, port, &bytes(rest));
        };
        let (reply, ticks) = match rest.split_once('(') {
            Some((reply, ticks)) => (reply, ticks.trim_end_matches(')').parse().expect("a number of ticks")),
            None => (rest, 1),
        };
        return ask(player, port, &bytes(message), ticks, &bytes(reply));
    }
    let (op, expected) = match line.split_once('=') {
        Some((op, expected)) => (op.trim(), bytes(expected)),
        None => (line, Vec::new()),
    };
    let mut script = vec![op.as_bytes()[0]];
    if let Some((_, part)) = op.split_once('[') {
        let (from, to) = part.trim_end_matches(']').split_once("..").expect("a part");
        let (from, to): (usize, usize) = (from.parse().expect("a place"), to.parse().expect("a place"));
        return same(op, &play(player, &script)[from..to], &expected);
    }
    script.extend(bytes(&op[1..]));
    same(op, &play(player, &script), &expected)
}
