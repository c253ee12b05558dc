//! The program evenplan, as a process: "reads a specification file from standard input" and prints the even plan whole, or one
//! line that says which refusal it met.

use crate::generate;
use crate::group::{same, Runner, RUNS};
use crate::random::Random;
use reference::{even, spec, Plan, Refusal};
use std::fmt::Write as _;
use std::io::Write as _;
use std::os::fd::OwnedFd;
use std::os::unix::net::UnixDatagram;
use std::path::Path;
use std::process::{Command, Stdio};
use std::time::Duration;

pub fn all(runner: &mut Runner, program: &Path) {
    let sample: &[u8] = &[0x0F, 0, 2, 0, 3, 0, 5, 0, 5, 0, 0x0F, 0, 0x1A, 0, 0x0A, 0, 0x14];
    let printed = "gap 5 cycle 4 total 10\n0 0 3\n1 5 2\n2 10 3\n3 15 2\n";
    // B with 15 and L 5, a duration and a second range. At gap 8 two reports in any 20 minutes are enough.
    let longest: &[u8] = &[0x3F, 0, 2, 0, 3, 0, 5, 0, 5, 0, 15, 0, 26, 0, 5, 0, 20, 0, 20, 0, 60, 0, 7, 0, 8];
    let in_second = "gap 8 cycle 2 total 5\n0 0 3\n1 8 2\n";
    let mut checks = vec![];
    for (name, file, wanted) in [
        ("B with 15", sample.to_vec(), printed),
        ("B with 14", [&sample[..9], &[0, 14], &sample[11..]].concat(), "refused 10\n"),
        ("no bytes", vec![], "refused 1\n"),
        ("a map without sizes", [&[0x0E], &sample[1..]].concat(), "refused 1\n"),
        ("one byte over", [sample, &[0]].concat(), "refused 2\n"),
        ("a byte short", sample[..16].to_vec(), "refused 2\n"),
        ("B with 0", [&sample[..9], &[0, 0], &sample[11..]].concat(), "refused 3\n"),
        ("sizes 4 to 3", [&sample[..1], &[0, 4], &sample[3..]].concat(), "refused 4\n"),
        ("a second range", longest.to_vec(), in_second),
        ("a second range that touches the first", [&longest[..21], &[0, 6, 0, 8]].concat(), in_second),
        ("a second range, L 10", [&longest[..13], &[0, 10], &longest[15..]].concat(), printed),
        ("a second range, L 10 and B 14", [&longest[..9], &[0, 14, 0, 26, 0, 10], &longest[15..]].concat(), "refused 10\n"),
        ("a second range from smax", [&longest[..21], &[0, 5, 0, 8]].concat(), "refused 24\n"),
        ("a second range 5 to 4", [&longest[..21], &[0, 5, 0, 4]].concat(), "refused 4\n"),
        ("a second range from 0", [&longest[..21], &[0, 0, 0, 8]].concat(), "refused 3\n"),
        ("a second range to 20,161", [&longest[..21], &[0, 5, 0x4E, 0xC1]].concat(), "refused 3\n"),
        ("24 bytes of the longest file", longest[..24].to_vec(), "refused 2\n"),
        ("the longest file and a byte", [longest, &[0]].concat(), "refused 2\n"),
        ("the longest file and 100,000 bytes", [longest, &[0; 100_000]].concat(), "refused 2\n"),
        ("a map that calls for a second range", [&[0x2F], &sample[1..]].concat(), "refused 2\n"),
        ("bit 6", [&[0x7F], &longest[1..]].concat(), "refused 1\n"),
        ("bit 7", [&[0xBF], &longest[1..]].concat(), "refused 1\n"),
    ] {
        let got = prints(program, &file);
        checks.push((format!("{name}: {got:?}"), got.as_deref() == Ok(wanted)));
    }
    runner.fixed("evenplan on samples", &checks);
    // Sizes and gaps of 1, and a record in any 20,160 minutes: the longest listing there is.
    let most = [0x0B, 0, 1, 0, 1, 0, 1, 0, 1, 0, 1, 0x4E, 0xC0];
    let whole = [("no bytes", &[][..]), ("B with 15", sample), ("20,160 reports", &most)].map(|(name, file)| {
        let wanted = text(file).1;
        let got = written(program, file, wanted.lines().count());
        let lines: Vec<_> = wanted.split_inclusive('\n').map(str::as_bytes).collect();
        (format!("{name}: {:?}", got.as_ref().map(Vec::len)), got.is_ok_and(|got| got == lines))
    });
    runner.fixed("evenplan writes each line at once", &whole);
    runner.random("evenplan on random specifications", RUNS / 100, &[0, 1, 2, 3, 4, 10, 24], |random, _| {
        let file = input(random);
        let (answer, wanted) = text(&file);
        same(answer, prints(program, &file)?, wanted, || format!("{file:02x?}"))
    });
}

/// A specification file; now and then far longer than any buffer.
fn input(random: &mut Random) -> Vec<u8> {
    let mut file = generate::spec_file(random);
    if random.once_in(40) {
        let over = random.between(1, 100_000) as usize;
        file.resize(file.len() + over, 0);
    }
    file
}

/// What the program prints, which must end well and complain of nothing.
fn prints(program: &Path, input: &[u8]) -> Result<String, String> {
    let problem = |error: std::io::Error| format!("{}: {error}", program.display());
    let mut command = Command::new(program);
    command.stdin(Stdio::piped()).stdout(Stdio::piped()).stderr(Stdio::piped());
    let mut process = command.spawn().map_err(problem)?;
    // A program that has seen enough may close its input early: only what it prints, and how it ends, counts.
    let _ = process.stdin.take().expect("a pipe").write_all(input);
    let output = process.wait_with_output().map_err(problem)?;
    if !output.status.success() || !output.stderr.is_empty() {
        return Err(format!("{}: {}, {:?}", program.display(), output.status, String::from_utf8_lossy(&output.stderr)));
    }
    String::from_utf8(output.stdout).map_err(|error| error.to_string())
}

/// What the program writes, write by write, of which there should be so many: each is a message of its own to a socket of messages.
fn written(program: &Path, input: &[u8], writes: usize) -> std::io::Result<Vec<Vec<u8>>> {
    let (ours, theirs) = UnixDatagram::pair()?;
    ours.set_read_timeout(Some(Duration::from_secs(20)))?;
    let mut process = Command::new(program).stdin(Stdio::piped()).stdout(OwnedFd::from(theirs)).spawn()?;
    let sent = process.stdin.take().expect("a pipe").write_all(input);
    let mut message = [0; 128];
    let mut next = || ours.recv(&mut message).map(|length| message[..length].to_vec());
    let got = sent.and_then(|()| (0..writes).map(|_| next()).collect());
    // One that writes more often, or is never done, waits for a reader.
    process.kill()?;
    process.wait()?;
    got
}

/// The answer and what the program should print.
fn text(file: &[u8]) -> (Refusal, String) {
    match spec::read(file).and_then(|spec| even::even_plan(&spec, even::counts_fit)) {
        Ok(plan) => (0, plan_text(&plan)),
        Err(refusal) => (refusal, format!("refused {refusal}\n")),
    }
}

/// "First line s, k, δ; then for each report of one period its number, minute, size."
fn plan_text(plan: &Plan) -> String {
    let mut text = format!("gap {} cycle {} total {}\n", plan.period / plan.k, plan.k, plan.total);
    for i in 0..plan.k {
        let (minute, size) = plan.report(i).expect("an even plan is proper");
        writeln!(text, "{i} {minute} {size}").expect("text grows");
    }
    text
}
