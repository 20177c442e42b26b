//! An independent second program for the event log of document 01.
//!
//!     reference replay < LOG                        the text that the program writes for a log
//!     reference show < LOG                          a log in words, a record a line
//!     reference make < WORDS > LOG                  a log from such words
//!     reference tell COMMAND.. < LOG                has the command replay a log, and tells its lines in words
//!     reference compare FROM COUNT SEED COMMAND..   has the command replay logs and compares the text
//!     reference cases FOLDER N COMMAND..            the same for NAME.words with the text in NAME.text, N of them or more
//!     reference log SEED NUMBER > LOG               one of compare's logs
//!     reference calls FROM COUNT SEED COMMAND..     has the command answer sequences of calls and compares the lines
//!     reference call-cases FOLDER N COMMAND..       the same for NAME.calls, which has the lines beside the calls
//!     reference call SEED NUMBER > CALLS            one of calls' sequences
//!     reference answer < CALLS                      the lines for a sequence
//!     reference make-calls < NAME.calls > CALLS     the calls of such a file
//!
//! compare and calls fail where something that can be reached was not, so too few do not pass. Its status is 1 where something differs, the
//! words make no log or the log that is told was refused, and 2 where the input cannot be read or the command does not answer.

mod alarms;
mod calls;
mod generate;
mod log;
mod side;
mod tell;

use std::collections::BTreeMap;
use std::io::{Read, Write};
use std::process::{exit, Command, Stdio};

fn input() -> Vec<u8> {
    let mut bytes = Vec::new();
    match std::io::stdin().read_to_end(&mut bytes) {
        Ok(_) => bytes,
        Err(why) => stop(format!("the input cannot be read: {why}")),
    }
}

/// Whoever reads the output may stop doing so.
fn output(bytes: &[u8]) {
    match std::io::stdout().write_all(bytes) {
        Err(why) if why.kind() != std::io::ErrorKind::BrokenPipe => stop(format!("the output cannot be written: {why}")),
        _ => {}
    }
}

/// Says why the command that was asked for ends.
fn say(why: &str) {
    eprintln!("{}: {why}", std::env::args().nth(1).unwrap_or("reference".into()));
}

fn fail(why: String) -> ! {
    say(&why);
    exit(1)
}

fn stop(why: String) -> ! {
    say(&why);
    exit(2)
}

fn words(bytes: &[u8]) -> String {
    let mut out = String::new();
    let mut at = 0;
    loop {
        match log::read(bytes, at) {
            Ok(Some((record, next))) => {
                out += &record.words();
                out.push('\n');
                at = next;
            }
            Ok(None) => return out,
            Err(13) => return out + &format!("# log 13 at {}\n", log::LONGEST),
            Err(number) => return out + &format!("# log {number} at {at}\n"),
        }
    }
}

/// The log that words make. An error names the line, the field, what was found there and what is allowed.
fn bytes(words: &[u8]) -> Vec<u8> {
    let mut out = Vec::new();
    for (n, line) in words.split(|byte| *byte == b'\n').enumerate() {
        let wrong = |why: log::Wrong| -> ! { fail(format!("line {}, {why}", n + 1)) };
        let text = std::str::from_utf8(line).unwrap_or_else(|why| {
            let byte = format!("the byte {:02X}", line[why.valid_up_to()]);
            wrong(log::Wrong::new("text", byte, "UTF-8"))
        });
        let record = text.split('#').next().unwrap_or("").trim();
        if record.is_empty() {
            continue;
        }
        out.extend(log::Record::from_words(record).unwrap_or_else(|why| wrong(why)).bytes());
        if out.len() > log::LONGEST {
            wrong(log::Wrong::new("log", format!("{} bytes up to here", out.len()), &format!("{} bytes or fewer", log::LONGEST)));
        }
    }
    out
}

/// What the command writes for an input; it must end with status 0.
fn replayed(command: &[String], log: &[u8]) -> Result<String, String> {
    let mut child = Command::new(&command[0])
        .args(&command[1..])
        .stdin(Stdio::piped())
        .stdout(Stdio::piped())
        .spawn()
        .map_err(|e| format!("{} does not start: {e}", command[0]))?;
    let mut pipe = child.stdin.take().expect("its input is a pipe");
    let log = log.to_vec();
    let feeder = std::thread::spawn(move || {
        // a program that has read enough may close its input
        let _ = pipe.write_all(&log);
    });
    let out = child.wait_with_output().map_err(|e| e.to_string())?;
    feeder.join().expect("the feeder ends");
    if !out.status.success() {
        return Err(format!("it ended with {}", out.status));
    }
    String::from_utf8(out.stdout).map_err(|_| "its text is no UTF-8".to_string())
}

fn differs(name: &str, log: &[u8], expected: &str, found: &Result<String, String>) -> ! {
    let path = "target/differs";
    let _ = std::fs::create_dir_all("target");
    let _ = std::fs::write(path, log);
    eprintln!("reference: {name} ({} bytes, kept in {path}) differs", log.len());
    match found {
        Err(why) => eprintln!("  {why}"),
        Ok(text) => {
            for (n, (a, b)) in expected.lines().chain(["(nothing)"]).zip(text.lines().chain(["(nothing)"])).enumerate() {
                if a != b {
                    eprintln!("  line {}: expected '{a}', found '{b}'", n + 1);
                    break;
                }
            }
        }
    }
    exit(1)
}

/// The (kind, answer) pairs that a log can reach; 10 x stands for arrival answer x, and kind 0 for what ends a log.
const REACHABLE: &[(usize, &[u64])] = &[
    (0, &[0, 10, 11, 12, 13]),
    (1, &[0, 1, 3, 4]),
    (2, &[0, 1, 2]),
    (3, &[0, 1, 2, 6, 7]),
    (4, &[100, 101, 102, 103, 104, 105, 1, 2, 6, 14]),
    (5, &[0, 1, 2, 17, 8]),
    (6, &[0, 1, 2, 8, 15]),
    (7, &[0, 1, 2, 8]),
    (8, &[0, 1, 2, 9]),
];

/// How often each (kind, answer) pair was seen; and under kinds that no record has, each of `rare`.
type Seen = BTreeMap<(usize, u64), u64>;

const BUFFER: usize = 65_536;
const LONG: (usize, u64) = (usize::MAX, 0);
const STRIDE: usize = usize::MAX - 1;
const WINDOW: usize = usize::MAX - 5;
const COUNTED: (usize, u64) = (usize::MAX - 2, 4);
const CONTRADICTS: usize = usize::MAX - 3;
const ALARMS: usize = usize::MAX - 4;

/// For so many logs, each of `rare` must be met at least once.
const ONE_IN: u64 = 200;

/// A text longer than two of the program's buffers, which it writes when they are full; a move over more than a word, and over the largest room, of
/// E by an arrival and of the place by a SACK; a repeat that is seen to be counted; a SACK that contradicts itself in each of the ways of `side::contradiction`; and a
/// SACK that meets marks in each of those of `alarms`.
fn rare() -> Vec<((usize, u64), &'static str)> {
    fn ways(class: usize, names: &'static [&'static str]) -> impl Iterator<Item = ((usize, u64), &'static str)> {
        names.iter().enumerate().map(move |(way, name)| ((class, way as u64), *name))
    }
    let mut all = vec![
        (LONG, "texts of more than two buffers"),
        ((STRIDE, 4), "arrivals that move E by more than 64"),
        ((STRIDE, 5), "SACKs that move the place by more than 64"),
        ((WINDOW, 4), "arrivals that move E by the largest room"),
        ((WINDOW, 5), "SACKs that move the place by the largest room"),
        (COUNTED, "known arrivals that raise count / 256"),
    ];
    all.extend(ways(CONTRADICTS, &side::CONTRADICTIONS));
    all.extend(ways(ALARMS, &alarms::WAYS));
    all
}

/// Has the command replay log i of a seed, which must make its records again from its own words.
fn compare_one(i: usize, seed: u64, command: &[String], seen: &mut Seen) {
    let log = generate::log(seed, i);
    // by slot and kind, where E and the place stand: one behind; and by slot the count / 256 of the last SACK, and the last PSN sent
    let (mut ends, mut counts, mut sent) = (BTreeMap::new(), BTreeMap::new(), BTreeMap::new());
    let mut marks = alarms::Followed::default();
    let last = log::replay(&log, |record, outcome| {
        let answer = match outcome {
            Err(number) => u64::from(*number),
            Ok(done) if record.kind == 4 => 100 + done.values[0],
            Ok(_) => 0,
        };
        *seen.entry((record.kind, answer)).or_default() += 1;
        for way in marks.event(record.slot.into(), record.kind, &record.fields, outcome) {
            *seen.entry((ALARMS, way as u64)).or_default() += 1;
        }
        let turn = u64::from(side::TURN);
        match (record.kind, outcome) {
            (1, Ok(_)) => {
                ends.insert((record.slot, 4), (record.fields[3] + turn - 1) % turn);
                ends.insert((record.slot, 5), (record.fields[1] + turn - 1) % turn);
                counts.insert(record.slot, 0);
                sent.insert(record.slot, (record.fields[1] + turn - 1) % turn);
            }
            (3, Ok(done)) => {
                sent.insert(record.slot, done.values[0]);
            }
            (5, Err(17)) => {
                let [place, last] = [ends[&(record.slot, 5)], sent[&record.slot]].map(|psn| psn as u32);
                for way in side::contradiction(place, side::distance(place, last), record.fields[0] as u32, record.fields[1] as u32) {
                    *seen.entry((CONTRADICTS, way as u64)).or_default() += 1;
                }
            }
            (4, Ok(done)) if done.values[0] > 1 => {}
            (kind @ (4 | 5), Ok(done)) => {
                let end = ends.insert((record.slot, kind), done.values[1]).expect("a slot in use was started");
                let moved = (done.values[1] + turn - end) % turn;
                for class in [(moved > 64).then_some(STRIDE), (moved == side::LARGEST_ROOM.into()).then_some(WINDOW)].into_iter().flatten() {
                    *seen.entry((class, kind as u64)).or_default() += 1;
                }
                if kind == 4 && counts.insert(record.slot, done.values[4]) < Some(done.values[4]) && done.values[0] == 1 {
                    *seen.entry(COUNTED).or_default() += 1;
                }
            }
            _ => {}
        }
    });
    let end = match last {
        log::Last::End(_) => 0,
        log::Last::Refused(number, _) => u64::from(number),
    };
    *seen.entry((0, end)).or_default() += 1;
    let back = bytes(words(&log).as_bytes());
    if !log.starts_with(&back) {
        fail(format!("log {i} of seed {seed}: its words do not make its records again"));
    }
    let expected = log::text(&log);
    if expected.len() > 2 * BUFFER {
        *seen.entry(LONG).or_default() += 1;
    }
    let found = replayed(command, &log);
    if found.as_ref() != Ok(&expected) {
        differs(&format!("log {i} of seed {seed}"), &log, &expected, &found);
    }
}

/// Does one after the other on all processors, and tells how often each thing was met.
fn on_all<K: Ord + Send>(range: std::ops::Range<usize>, one: impl Fn(usize, &mut BTreeMap<K, u64>) + Sync) -> BTreeMap<K, u64> {
    let workers = std::thread::available_parallelism().map_or(1, |n| n.get());
    let mut seen = BTreeMap::new();
    std::thread::scope(|scope| {
        let share = |worker: usize| {
            let mut seen = BTreeMap::new();
            range.clone().skip(worker).step_by(workers).for_each(|i| one(i, &mut seen));
            seen
        };
        let running: Vec<_> = (0..workers).map(|worker| scope.spawn(move || share(worker))).collect();
        for worker in running {
            for (what, times) in worker.join().expect("a comparison ends") {
                *seen.entry(what).or_default() += times;
            }
        }
    });
    seen
}

/// Has the command replay a log, and tells its lines in words.
fn told(command: &[String]) {
    let log = input();
    let text = replayed(command, &log).unwrap_or_else(|why| stop(format!("the program gives no text: {why}")));
    let told = tell::tell(&log, &text).unwrap_or_else(|why| stop(format!("the program's text does not fit the log: {why}")));
    output(told.text.as_bytes());
    exit(i32::from(told.refused))
}

/// Compares the logs, and tells which answers they had.
fn compare(from: usize, count: usize, seed: u64, command: &[String]) {
    let mut seen = on_all(from..from + count, |i, seen| compare_one(i, seed, command, seen));
    let rare: Vec<(u64, &str)> = rare().into_iter().map(|(what, name)| (seen.remove(&what).unwrap_or(0), name)).collect();
    for (kind, answers) in REACHABLE {
        let row: Vec<String> = answers.iter().map(|a| format!("{a}: {}", seen.get(&(*kind, *a)).unwrap_or(&0))).collect();
        println!("kind {kind}  {}", row.join("  "));
    }
    let met: Vec<String> = rare.iter().map(|(times, name)| format!("{name}: {times}")).collect();
    println!("{}", met.join("; "));
    for (kind, answers) in REACHABLE {
        for answer in *answers {
            if !seen.contains_key(&(*kind, *answer)) {
                fail(format!("no log had kind {kind} answered {answer}"));
            }
        }
    }
    if let Some(pair) = seen.keys().find(|(kind, answer)| !REACHABLE.iter().any(|(k, a)| k == kind && a.contains(answer))) {
        fail(format!("kind {} was answered {}, which no log can reach", pair.0, pair.1));
    }
    if let Some((times, name)) = rare.iter().find(|(times, _)| times * ONE_IN < count as u64) {
        fail(format!("{count} logs have {times} {name}, too few"));
    }
    println!("compare: {count} logs of seed {seed}, the same text for each");
}

/// The lines for a sequence of calls.
fn answers(sequence: &[calls::Call], seen: &mut calls::Seen) -> String {
    let mut library = calls::Library::new();
    sequence.iter().map(|call| library.line(call, seen)).collect()
}

/// Compares sequences of calls, and tells what they met.
fn compare_calls(from: usize, count: usize, seed: u64, command: &[String]) {
    let seen = on_all(from..from + count, |i, seen| {
        let sequence = calls::sequence(seed, i);
        let expected = answers(&sequence, seen);
        let bytes = calls::bytes(&sequence);
        let found = replayed(command, &bytes);
        if found.as_ref() != Ok(&expected) {
            differs(&format!("sequence {i} of seed {seed}"), &bytes, &expected, &found);
        }
    });
    let reachable = calls::reachable();
    let counts: Vec<String> = reachable.iter().map(|what| format!("{what} ({})", seen.get(what).unwrap_or(&0))).collect();
    counts.chunks(5).for_each(|row| println!("{}", row.join(", ")));
    if let Some(what) = reachable.iter().find(|what| !seen.contains_key(*what)) {
        fail(format!("no sequence of calls had: {what}"));
    }
    if let Some(what) = seen.keys().find(|what| !reachable.contains(what)) {
        fail(format!("a sequence of calls had: {what}, which none can reach"));
    }
    println!("calls: {count} sequences of seed {seed}, the same lines for each");
}

/// The calls of a file, and the line that stands beside each after `=>`.
fn call_script(text: &str) -> Vec<(calls::Call, String)> {
    let mut out = Vec::new();
    for (n, line) in text.lines().enumerate() {
        let line = line.split('#').next().unwrap_or("").trim();
        if line.is_empty() {
            continue;
        }
        let (call, answer) = line.split_once("=>").unwrap_or_else(|| fail(format!("line {}: no => in it", n + 1)));
        let call = calls::from_words(call).unwrap_or_else(|why| fail(format!("line {}: {why}", n + 1)));
        out.push((call, format!("{}\n", answer.trim())));
    }
    out
}

/// The names in a folder that have an ending, so many or more.
fn names(folder: &str, ending: &str, least: usize) -> Vec<String> {
    let mut names: Vec<_> = std::fs::read_dir(folder)
        .unwrap_or_else(|e| fail(format!("{folder}: {e}")))
        .filter_map(|entry| entry.ok()?.path().file_name()?.to_str()?.strip_suffix(ending).map(String::from))
        .collect();
    names.sort();
    if names.len() < least {
        fail(format!("{folder} has {} cases {ending}, of at least {least}", names.len()));
    }
    names
}

fn call_cases(folder: &str, least: usize, command: &[String]) {
    let names = names(folder, ".calls", least);
    for name in &names {
        let text = std::fs::read_to_string(format!("{folder}/{name}.calls")).unwrap_or_else(|e| fail(format!("{name}.calls: {e}")));
        let (sequence, lines): (Vec<calls::Call>, Vec<String>) = call_script(&text).into_iter().unzip();
        let expected = lines.concat();
        let own = answers(&sequence, &mut calls::Seen::new());
        let bytes = calls::bytes(&sequence);
        for (who, found) in [("reference", Ok(own)), ("command", replayed(command, &bytes))] {
            if found.as_ref() != Ok(&expected) {
                differs(&format!("case {name}, by the {who},"), &bytes, &expected, &found);
            }
        }
    }
    println!("call-cases: {}, of at least {least}, with the expected lines: {}", names.len(), names.join(" "));
}

fn cases(folder: &str, least: usize, command: &[String]) {
    let names = names(folder, ".words", least);
    for name in &names {
        let read = |ending: &str| std::fs::read_to_string(format!("{folder}/{name}.{ending}")).unwrap_or_else(|e| fail(format!("{name}.{ending}: {e}")));
        let log = bytes(read("words").as_bytes());
        let expected = read("text");
        let found = replayed(command, &log);
        if found.as_ref() != Ok(&expected) {
            differs(&format!("case {name}"), &log, &expected, &found);
        }
        if log::text(&log) != expected {
            fail(format!("case {name}: the reference itself gives another text"));
        }
    }
    println!("cases: {}, of at least {least}, with the expected text: {}", names.len(), names.join(" "));
}

fn number(s: &str) -> u64 {
    s.parse().unwrap_or_else(|_| fail(format!("{s} is no number")))
}

fn from_bytes(bytes: &[u8]) -> Vec<calls::Call> {
    let number = |part: &[u8]| u64::from_be_bytes(part.try_into().expect("eight bytes"));
    let call = |part: &[u8]| std::array::from_fn(|i| number(&part[8 * i..8 * i + 8]));
    bytes.chunks_exact(64).map(call).collect()
}

fn main() {
    let args: Vec<String> = std::env::args().skip(1).collect();
    let words_of: Vec<&str> = args.iter().map(String::as_str).collect();
    match words_of.as_slice() {
        ["replay"] => output(log::text(&input()).as_bytes()),
        ["show"] => output(words(&input()).as_bytes()),
        ["make"] => output(&bytes(&input())),
        ["tell", _, ..] => told(&args[1..]),
        ["log", seed, i] => output(&generate::log(number(seed), number(i) as usize)),
        ["compare", from, count, seed, _, ..] => compare(number(from) as usize, number(count) as usize, number(seed), &args[4..]),
        ["cases", folder, least, _, ..] => cases(folder, number(least) as usize, &args[3..]),
        ["calls", from, count, seed, _, ..] => compare_calls(number(from) as usize, number(count) as usize, number(seed), &args[4..]),
        ["call-cases", folder, least, _, ..] => call_cases(folder, number(least) as usize, &args[3..]),
        ["call", seed, i] => output(&calls::bytes(&calls::sequence(number(seed), number(i) as usize))),
        ["answer"] => output(answers(&from_bytes(&input()), &mut calls::Seen::new()).as_bytes()),
        ["make-calls"] => {
            let sequence: Vec<calls::Call> = call_script(&String::from_utf8_lossy(&input())).into_iter().map(|pair| pair.0).collect();
            output(&calls::bytes(&sequence));
        }
        _ => fail("usage: replay | show | make | tell COMMAND.. | log SEED NUMBER | compare FROM COUNT SEED COMMAND.. | cases FOLDER N COMMAND.. | \
            calls FROM COUNT SEED COMMAND.. | call-cases FOLDER N COMMAND.. | call SEED NUMBER | answer | make-calls"
            .into()),
    }
}
