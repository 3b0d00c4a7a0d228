//! `vectors [FOLDER]`: the plain implementation alone, against answers that are known to be right.
//!
//! FOLDER has the shared cases: `cases.tsv` with a case a line, and `path.cases` with
//! `path.expected`. The numbered examples of document 01 run in any case. What is compared is the
//! text of an answer; a lent buffer that is not left as the rules have it spoils that text.

// Some of what it offers is used by the field tests only.
#[allow(dead_code, unused_imports)]
mod plain;

use plain::{REPLY, TABLE};
use std::process::ExitCode;
use std::{env, fs};

fn main() -> ExitCode {
    match run(env::args().nth(1)) {
        Ok(summary) => {
            println!("vectors: {summary}");
            ExitCode::SUCCESS
        }
        Err(difference) => {
            println!("vectors: {difference}");
            ExitCode::FAILURE
        }
    }
}

fn run(folder: Option<String>) -> Result<String, String> {
    let examples = run_examples()?;
    let folder = match folder {
        Some(folder) => folder,
        None => return Ok(format!("{examples} examples as expected")),
    };
    let file = |name| format!("{folder}/{name}");
    let cases = run_cases(&file("cases.tsv"))?;
    let bundles = run_bundles(&file("path.cases"), &file("path.expected"))?;
    Ok(format!("{examples} examples, {cases} cases and {bundles} bundles as expected"))
}

// The shared cases

fn run_cases(file: &str) -> Result<usize, String> {
    let text = fs::read_to_string(file).map_err(|error| format!("{file}: {error}"))?;
    for (number, line) in (1..).zip(text.lines()) {
        let (case, expected) = line.rsplit_once('\t').ok_or("a line without TAB")?;
        compare(&format!("{file}, line {number}"), expected, &answer(case)?)?;
    }
    Ok(text.lines().count())
}

fn run_bundles(cases: &str, expected: &str) -> Result<usize, String> {
    let octets = fs::read(cases).map_err(|error| format!("{cases}: {error}"))?;
    let text = fs::read_to_string(expected).map_err(|error| format!("{expected}: {error}"))?;
    let (mut rest, mut text, mut count) = (&octets[..], &text[..], 0);
    while let &[a, b, c, d, ref after @ ..] = rest {
        let (bundle, after) = after.split_at(u32::from_be_bytes([a, b, c, d]) as usize);
        let answer = path_answer(bundle, TABLE, TABLE);
        let expected = text.get(..answer.len()).unwrap_or(text);
        compare(&format!("{cases}, bundle {count}"), expected, &answer)?;
        (rest, text, count) = (after, &text[answer.len()..], count + 1);
    }
    match text {
        "" => Ok(count),
        left => Err(format!("{expected}: {} octets too many", left.len())),
    }
}

fn compare(what: &str, expected: &str, answer: &str) -> Result<(), String> {
    match expected == answer {
        true => Ok(()),
        false => Err(format!("{what}\nexpected {expected}\nanswered {answer}")),
    }
}

/// The answer to a line of `cases.tsv`, without what it expects.
fn answer(case: &str) -> Result<String, String> {
    let fields: Vec<&str> = case.split('\t').collect();
    match fields[..] {
        ["P", _, first, second, bundle] => {
            let text = path_answer(&octets(bundle)?, number(first)?, number(second)?);
            Ok(text.replace('\n', "|"))
        }
        ["R", _, extension, table, value] => {
            Ok(read_answer(extension, &octets(value)?, number(table)?))
        }
        ["W", _, kind, numbers, room] => {
            Ok(write_answer(number(kind)?, &numbers_of(numbers)?, number(room)?))
        }
        ["F", _, table, ip, as_] => Ok(fault_answer(&octets(ip)?, &octets(as_)?, number(table)?)),
        _ => Err(format!("not a case: {case}")),
    }
}

fn read_answer(extension: &str, value: &[u8], length: usize) -> String {
    let (mut table, mut reply) = (numbers_before(length), numbers_before(REPLY + 1));
    let returned = match extension {
        "1" => plain::read_ip(value, &mut table, &mut reply),
        _ => plain::read_as(value, &mut table, &mut reply),
    };
    let rows = table_text(&table, &reply);
    answer_text(returned, &reply, |count| format!("ok {count} {rows}"))
}

fn write_answer(kind: u64, numbers: &[u64], room: usize) -> String {
    let (mut out, mut reply) = (octets_before(room), numbers_before(REPLY + 1));
    let returned = plain::write(kind, numbers, &mut out, &mut reply);
    let written = reply[7] as usize;
    if out[written..] != octets_before(room)[written..] {
        return "octets were changed that are not reported".into();
    }
    answer_text(returned, &reply, |count| format!("ok {count} {}", hex(&out[..written])))
}

/// What the program `pathtable` prints.
fn path_answer(bundle: &[u8], first: usize, second: usize) -> String {
    let (mut first, mut second) = (numbers_before(first), numbers_before(second));
    let mut reply = numbers_before(REPLY + 1);
    let returned = plain::path(bundle, &mut first, &mut second, &mut reply);
    let shortest = first.len().min(second.len());
    if !table_is(&first, &reply, shortest, reply[7]) || !table_is(&second, &reply, shortest, 0) {
        return "a table is not as the rules have it".into();
    }
    let rows: String = rows_of(&first, reply[7]).chunks(plain::ROW).map(row_line).collect();
    let text = answer_text(returned, &reply, |count| format!("ok {count} {}", reply[8]));
    format!("{text}\n{rows}")
}

fn row_line(row: &[u64]) -> String {
    format!("{} {:016x}{:016x} {:016x}{:016x}\n", row[0], row[2], row[3], row[4], row[5])
}

fn fault_answer(ip: &[u8], as_: &[u8], length: usize) -> String {
    let (mut table, mut reply) = (numbers_before(length), numbers_before(REPLY + 1));
    let returned = plain::fault(ip, as_, &mut table, &mut reply);
    let [number, certificate, extension, place, which, start, end, rows, pairs] = nine(&reply);
    if (returned, certificate, pairs, reply[REPLY]) != (number, 0, 0, numbers_before(10)[REPLY]) {
        return "a reply that is not as the rules have it".into();
    }
    let numbers = table_text(&table, &reply);
    format!("part {which} {start} {end} {number} {extension} {place} {rows} {numbers}")
}

/// The nine numbers of a reply.
fn nine(reply: &[u64]) -> [u64; REPLY] {
    reply[..REPLY].try_into().expect("nine numbers")
}

/// The text of a reply: that of an acceptance with this count, or that of a refusal.
fn answer_text(returned: u64, reply: &[u64], accepted: impl Fn(u64) -> String) -> String {
    let [number, certificate, extension, place, space, upper, lower, count, pairs] = nine(reply);
    let named = [certificate, extension, place, space, upper, lower];
    let broken = match number {
        0 => named != [0; 6],
        _ => (count, pairs) != (0, 0),
    };
    if broken || returned != number || reply[REPLY] != numbers_before(10)[REPLY] {
        return "a reply that is not as the rules have it".into();
    }
    if number == 0 {
        return accepted(count);
    }
    format!("no {number} {certificate} {extension} {place} {space} {upper:016x}{lower:016x}")
}

// Lent buffers. Before the call they are full of rubbish, each number with its own.

fn numbers_before(length: usize) -> Vec<u64> {
    (1..=length as u64).map(|number| number.wrapping_mul(0x9e37_79b9_7f4a_7c15)).collect()
}

fn octets_before(length: usize) -> Vec<u8> {
    numbers_before(length).iter().map(|number| *number as u8).collect()
}

/// The numbers of a table's rows as in `cases.tsv`, if the whole table is as the rules have it.
fn table_text(table: &[u64], reply: &[u64]) -> String {
    if !table_is(table, reply, table.len(), reply[7]) {
        return "a table that is not as the rules have it".into();
    }
    let rows = rows_of(table, reply[7]);
    let numbers: Vec<String> = rows.iter().map(u64::to_string).collect();
    match numbers.is_empty() {
        true => "-".into(),
        false => numbers.join(","),
    }
}

/// Whether a table has zeros after so many rows up to number 3,072, and later numbers as they
/// were; all as they were if the shortest table was too short.
fn table_is(table: &[u64], reply: &[u64], shortest: usize, rows: u64) -> bool {
    let before = numbers_before(table.len());
    if shortest < TABLE {
        return reply[0] == 16 && table == before;
    }
    let after_rows = &table[rows_of(table, rows).len()..TABLE];
    after_rows.iter().all(|&number| number == 0) && table[TABLE..] == before[TABLE..]
}

fn rows_of(table: &[u64], count: u64) -> &[u64] {
    &table[..plain::ROW * count as usize]
}

// Fields of a line

fn number<T: std::str::FromStr>(field: &str) -> Result<T, String> {
    field.parse().map_err(|_| format!("not a number: {field}"))
}

fn numbers_of(field: &str) -> Result<Vec<u64>, String> {
    match field {
        "-" => Ok(vec![]),
        _ => field.split(',').map(number).collect(),
    }
}

fn octets(field: &str) -> Result<Vec<u8>, String> {
    let digits: Vec<char> = field.chars().filter(|digit| !"- ".contains(*digit)).collect();
    let octet = |pair: &[char]| u8::from_str_radix(&pair.iter().collect::<String>(), 16);
    digits.chunks(2).map(octet).collect::<Result<_, _>>().map_err(|error| error.to_string())
}

fn hex(octets: &[u8]) -> String {
    octets.iter().map(|octet| format!("{octet:02x}")).collect()
}

// The numbered examples of document 01, as lines of `cases.tsv`

/// Extension, value, and what the reader answers.
const EXAMPLES: [(&str, &str, &str); 20] = [
    // 1: Appendix B's first value
    (
        "1",
        "3035 302b 0403000101 3024 0304040a0020 0304000a0040 0303000a01 \
         300c 0304040a0230 0304000a0240 0303000a03 3006 04020002 0500",
        "ok 6 1026,0,0,167780352,0,167784447,1026,0,0,167788544,0,167788799,\
         1026,0,0,167837696,0,167903231,1026,0,0,167915520,0,167919871,\
         1026,0,0,167968768,0,168034303,2048,1,0,0,0,0",
    ),
    // 2: all of IPv4
    ("1", "300b 3009 04020001 3003 030100", "ok 1 1024,0,0,0,0,4294967295"),
    // 3: 129.64.0.0 to 143.255.255.255
    (
        "1",
        "3013 3011 04020001 300b 3009 0303068140 03020480",
        "ok 1 1024,0,0,2168455168,0,2415919103",
    ),
    // 4: a one among the unused bits
    ("1", "300d 300b 04020001 3005 0303040a41", "no 4 0 1 10 0 "),
    // 5: a prefix written as a range
    ("1", "3012 3010 04020001 300a 3008 0302010a 0302000a", "no 9 0 1 10 0 "),
    // 6: prefixes that touch
    ("1", "3012 3010 04020001 300a 0303070a00 0303070a80", "no 10 0 1 15 0 "),
    // 7: 129.0.0.0 to 255.255.255.255, and max without a one bit
    (
        "1",
        "3012 3010 04020001 300a 3008 03020081 03020780",
        "ok 1 1024,0,0,2164260864,0,4294967295",
    ),
    ("1", "3011 300f 04020001 3009 3007 03020081 030100", "no 9 0 1 10 0 "),
    // 8: 0.0.0.1 to 127.255.255.255
    ("1", "3015 3013 04020001 300d 300b 03050000000001 03020640", "ok 1 1024,0,0,1,0,2147483647"),
    // 9: Appendix C's value
    (
        "2",
        "301a a014 3012 02020087 3008 02020bb8 02020f9f 02021389 a102 0500",
        "ok 4 4096,0,0,135,0,135,4096,0,0,3000,0,3999,4096,0,0,5001,0,5001,5120,1,0,0,0,0",
    ),
    // 10: the last AS number, and INTEGERs that are too large, negative, not minimal
    ("2", "300b a009 3007 020500ffffffff", "ok 1 4096,0,0,4294967295,0,4294967295"),
    ("2", "300b a009 3007 02050100000000", "no 4 0 2 6 0 "),
    ("2", "3007 a005 3003 020187", "no 4 0 2 6 0 "),
    ("2", "3008 a006 3004 0202007f", "no 4 0 2 6 0 "),
    // 11: no element
    ("1", "3000", "ok 0 -"),
    ("2", "3000", "no 8 0 2 0 0 "),
    // 13: Appendix B's second value, put right
    (
        "1",
        "302c 3010 0403000101 3009 0302000a 030304ac10 3007 0403000102 0500 \
         300f 04020002 3009 030700200100000002",
        "ok 4 1026,0,0,167772160,0,184549375,1026,0,0,2886729728,0,2887778303,\
         1027,1,0,0,0,0,2048,0,2306124484190535680,0,2306124484190601215,18446744073709551615",
    ),
    // Number 1, which only the reader alone gives for an empty value
    ("1", "-", "no 1 0 1 0 0 "),
    ("2", "-", "no 1 0 2 0 0 "),
    // An element may not follow one that ends at the last address
    ("1", "3012 3010 04020001 300a 030500ffffffff 030100", "no 10 0 1 17 0 "),
];

/// Bundles, and what `pathtable` prints.
const BUNDLES: [(&str, &str); 2] = [
    (
        "524348000102 000e 300c300a04020001300403 02000a 0000 000a 30083006040200010500 0000",
        "ok 1 1\n1024 0000000000000000000000000a000000 0000000000000000000000000affffff\n",
    ),
    // 12: issuer 10.0.0.0/9, own 10/8
    (
        "524348000102 000f 300d300b0402000130050303070a00 0000 \
         000e 300c300a0402000130040302000a 0000",
        "no 15 1 1 0 1024 0000000000000000000000000a800000\n",
    ),
];

fn run_examples() -> Result<usize, String> {
    for (extension, value, expected) in EXAMPLES {
        let value = octets(value)?;
        let mut expected = expected.to_string();
        if expected.starts_with("no") {
            expected += &"0".repeat(32);
        }
        let answer = read_answer(extension, &value, TABLE + 1);
        compare(&format!("example {}", hex(&value)), &expected, &answer)?;
    }
    for (bundle, expected) in BUNDLES {
        compare("example bundle", expected, &path_answer(&octets(bundle)?, TABLE, TABLE + 1))?;
    }
    Ok(EXAMPLES.len() + BUNDLES.len())
}
