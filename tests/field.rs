//! The proved library against the plain implementation, over generated cases.
//!
//!     field CASES [SEED]             so many cases
//!     field --soak SECONDS [SEED]    as many cases as fit in that time
//!     field --case NUMBER [SEED]     one case of a run, again
//!
//! Each case is a call of one of the five functions of `include/rch.h`. Both sides are lent buffers
//! that hold the same rubbish, with a fence of rubbish on either side. Afterwards the numbers they
//! return and all of every buffer must be equal, and what was given to be read must be as it was.
//! Now and then the same case goes through the Rust binding as well. If the library brings the
//! program down, the number of the case is told.

mod binding;
mod counts;
mod crash;
mod generate;
mod plain;

use counts::Counts;
use generate::{case, Call, Case, Random};
use rch::sys::{rch_fault, rch_path, rch_read_as, rch_read_ip, rch_write};
use std::process::ExitCode;
use std::time::{Duration, Instant};

const USAGE: &str = "usage: field CASES [SEED] | --soak SECONDS [SEED] | --case NUMBER [SEED]";

fn main() -> ExitCode {
    let words: Vec<String> = std::env::args().skip(1).collect();
    let words: Vec<&str> = words.iter().map(String::as_str).collect();
    let (run, seed) = match Run::parse(&words) {
        Some(parsed) => parsed,
        None => {
            eprintln!("{USAGE}");
            return ExitCode::from(2);
        }
    };
    crash::watch();
    match Field::new(seed).run(run) {
        Ok(summary) => {
            println!("{summary}");
            ExitCode::SUCCESS
        }
        Err(message) => {
            println!("{message}");
            ExitCode::FAILURE
        }
    }
}

/// Which cases to run.
enum Run {
    Cases(u64),
    Soak(Duration),
    One(u64),
}

impl Run {
    fn parse(words: &[&str]) -> Option<(Run, u64)> {
        let (run, seed) = match words {
            ["--soak", seconds, seed @ ..] => {
                (Run::Soak(Duration::from_secs(seconds.parse().ok()?)), seed)
            }
            ["--case", number, seed @ ..] => (Run::One(number.parse().ok()?), seed),
            [cases, seed @ ..] => (Run::Cases(cases.parse().ok()?), seed),
            [] => return None,
        };
        match seed {
            [] => Some((run, 1)),
            [seed] => Some((run, seed.parse().ok()?)),
            _ => None,
        }
    }
}

struct Field {
    seed: u64,
    rubbish: Vec<u64>,
    counts: Counts,
}

impl Field {
    fn new(seed: u64) -> Field {
        let mut random = Random::new(!seed);
        let rubbish = (0..16_384).map(|_| random.number()).collect();
        Field { seed, rubbish, counts: Counts::default() }
    }

    /// Runs the cases; the summary, or the first difference or what was not seen.
    fn run(mut self, run: Run) -> Result<String, String> {
        match run {
            Run::One(number) => {
                self.case(number)?;
                return Ok(self.counts.summary(self.seed));
            }
            Run::Cases(cases) => (0..cases).try_for_each(|number| self.case(number))?,
            Run::Soak(time) => {
                let start = Instant::now();
                (0..).take_while(|_| start.elapsed() < time).try_for_each(|n| self.case(n))?;
            }
        }
        let summary = self.counts.summary(self.seed);
        match self.counts.not_seen() {
            missing if missing.is_empty() => Ok(summary),
            missing => Err(format!("{summary}\nnot seen: {}", missing.join(", "))),
        }
    }

    /// One case on both sides.
    fn case(&mut self, number: u64) -> Result<(), String> {
        crash::note_case(number);
        let mut random = Random::new(Random::new(self.seed ^ number.rotate_left(32)).number());
        let case = case(&mut random);
        let before = Buffers::for_case(&case, &self.rubbish, &mut random);
        let by_plain = call_plain(&case.call, before.clone());
        let given = case.call.clone();
        let by_face = call_face(&case.call, before);
        let mut differences = by_plain.differences(&by_face);
        if case.call != given {
            differences.push("what was given to be read has changed".into());
        }
        if number % 8 == 0 {
            differences.extend(binding::differences(&case.call));
        }
        if !differences.is_empty() {
            return Err(self.report(number, &case, &differences));
        }
        self.counts.add(&case, by_plain.returned);
        Ok(())
    }

    fn report(&self, number: u64, case: &Case, differences: &[String]) -> String {
        format!(
            "case {number} of seed {} ({}), {}\nreply of {} numbers\n{}",
            self.seed,
            case.kind,
            describe(&case.call),
            case.reply,
            differences.join("\n")
        )
    }
}

// Buffers

/// What is added on either side of a lent buffer and must stay as it is.
const FENCE: usize = 16;

/// A lent buffer between its fences.
#[derive(Clone, PartialEq, Eq)]
struct Fenced<T> {
    all: Vec<T>,
}

impl<T> Fenced<T> {
    fn new(length: usize, content: impl FnMut(usize) -> T) -> Fenced<T> {
        Fenced { all: (0..length + 2 * FENCE).map(content).collect() }
    }

    fn lent(&mut self) -> &mut [T] {
        let end = self.all.len() - FENCE;
        &mut self.all[FENCE..end]
    }
}

/// All lent buffers of a call; one that the function does not take is empty.
#[derive(Clone)]
struct Buffers {
    reply: Fenced<u64>,
    first: Fenced<u64>,
    second: Fenced<u64>,
    out: Fenced<u8>,
}

impl Buffers {
    /// Full of rubbish.
    fn for_case(case: &Case, rubbish: &[u64], random: &mut Random) -> Buffers {
        let (first, second, out) = match &case.call {
            Call::ReadIp { table, .. } | Call::ReadAs { table, .. } => (*table, 0, 0),
            Call::Fault { table, .. } => (*table, 0, 0),
            Call::Write { room, .. } => (0, 0, *room),
            Call::Path { first, second, .. } => (*first, *second, 0),
        };
        let mut numbers = |length| {
            let start = random.below(rubbish.len());
            Fenced::new(length, |place| rubbish[(start + place) % rubbish.len()])
        };
        let (reply, first, second) = (numbers(case.reply), numbers(first), numbers(second));
        let start = random.below(rubbish.len());
        let out = Fenced::new(out, |place| rubbish[(start + place) % rubbish.len()] as u8);
        Buffers { reply, first, second, out }
    }
}

/// What a call returns, and the buffers after it.
struct Outcome {
    returned: u64,
    buffers: Buffers,
}

impl Outcome {
    /// Where this and the other differ, in words; none if they do not.
    fn differences(&self, face: &Outcome) -> Vec<String> {
        let mut differences = Vec::new();
        if self.returned != face.returned {
            differences.push(format!("plain returns {}, face {}", self.returned, face.returned));
        }
        let (plain, face) = (&self.buffers, &face.buffers);
        differences.extend(difference("reply", &plain.reply, &face.reply));
        differences.extend(difference("first table", &plain.first, &face.first));
        differences.extend(difference("second table", &plain.second, &face.second));
        differences.extend(difference("output", &plain.out, &face.out));
        if !differences.is_empty() {
            differences.push(format!("plain reply {:?}", plain.reply.clone().lent()));
            differences.push(format!("face reply  {:?}", face.reply.clone().lent()));
        }
        differences
    }
}

/// Where two buffers differ. Places before the buffer are negative; both fences are looked at.
fn difference<T>(name: &str, plain: &Fenced<T>, face: &Fenced<T>) -> Option<String>
where
    T: PartialEq + std::fmt::LowerHex,
{
    if plain == face {
        return None;
    }
    let pairs = plain.all.iter().zip(&face.all).enumerate();
    let differing: Vec<(usize, (&T, &T))> = pairs.filter(|(_, (one, two))| one != two).collect();
    let mut text = format!("{name}: {} places differ:", differing.len());
    for (place, (one, two)) in differing.iter().take(24) {
        let place = *place as isize - FENCE as isize;
        text += &format!(" [{place}] plain {one:x} face {two:x}");
    }
    Some(text)
}

// Calls

fn call_plain(call: &Call, mut buffers: Buffers) -> Outcome {
    let Buffers { reply, first, second, out } = &mut buffers;
    let (reply, first) = (reply.lent(), first.lent());
    let returned = match call {
        Call::ReadIp { value, .. } => plain::read_ip(value, first, reply),
        Call::ReadAs { value, .. } => plain::read_as(value, first, reply),
        Call::Write { kind, numbers, .. } => plain::write(*kind, numbers, out.lent(), reply),
        Call::Path { bundle, .. } => plain::path(bundle, first, second.lent(), reply),
        Call::Fault { ip, as_, .. } => plain::fault(ip, as_, first, reply),
    };
    Outcome { returned, buffers }
}

/// The same call of the C function. A slice is handed over as pointer and length.
fn call_face(call: &Call, mut buffers: Buffers) -> Outcome {
    let Buffers { reply, first, second, out } = &mut buffers;
    let (reply, reply_len) = pointer(reply.lent());
    let (first, first_len) = pointer(first.lent());
    let (second, second_len) = pointer(second.lent());
    let (out, out_len) = pointer(out.lent());
    // SAFETY: each pointer goes with the length of its slice, and the buffers are apart.
    let returned = unsafe {
        match call {
            Call::ReadIp { value: v, .. } => {
                rch_read_ip(v.as_ptr(), v.len(), first, first_len, reply, reply_len)
            }
            Call::ReadAs { value: v, .. } => {
                rch_read_as(v.as_ptr(), v.len(), first, first_len, reply, reply_len)
            }
            Call::Write { kind, numbers: n, .. } => {
                rch_write(*kind, n.as_ptr(), n.len(), out, out_len, reply, reply_len)
            }
            Call::Path { bundle: b, .. } => {
                let (first, second) = ((first, first_len), (second, second_len));
                rch_path(
                    b.as_ptr(),
                    b.len(),
                    first.0,
                    first.1,
                    second.0,
                    second.1,
                    reply,
                    reply_len,
                )
            }
            Call::Fault { ip, as_, .. } => {
                let (ip, as_) = ((ip.as_ptr(), ip.len()), (as_.as_ptr(), as_.len()));
                rch_fault(ip.0, ip.1, as_.0, as_.1, first, first_len, reply, reply_len)
            }
        }
    };
    Outcome { returned, buffers }
}

fn pointer<T>(lent: &mut [T]) -> (*mut T, usize) {
    (lent.as_mut_ptr(), lent.len())
}

/// The function and all that it is given, in hexadecimal digits.
fn describe(call: &Call) -> String {
    match call {
        Call::ReadIp { value, table } => {
            format!("rch_read_ip\nvalue {}\ntable of {table} numbers", hex(value))
        }
        Call::ReadAs { value, table } => {
            format!("rch_read_as\nvalue {}\ntable of {table} numbers", hex(value))
        }
        Call::Write { kind, numbers, room } => {
            format!("rch_write\nkind {kind:x}\nnumbers {numbers:x?}\nroom for {room} octets")
        }
        Call::Path { bundle, first, second } => {
            format!("rch_path\nbundle {}\ntables of {first} and {second} numbers", hex(bundle))
        }
        Call::Fault { ip, as_, table } => {
            format!("rch_fault\nip {}\nas {}\ntable of {table} numbers", hex(ip), hex(as_))
        }
    }
}

fn hex(octets: &[u8]) -> String {
    octets.iter().map(|octet| format!("{octet:02x}")).collect()
}
