//! Runs the program as its users do: the stored sessions and bad lines of `tests/`, wrong arguments, large inputs, and
//! standard streams that fail. The variable `IOBUF_PROGRAM` names another program than cargo's, as the one that the kit
//! builds. Inputs are longer if `IOBUFS_LARGE` is set.
use std::ffi::{OsStr, OsString};
use std::fs::{self, File};
use std::io::{BufReader, Read, Seek, Write};
use std::path::{Path, PathBuf};
use std::process::{Child, Command, Stdio};
use std::sync::mpsc;
use std::time::Duration;
use std::{env, thread};

const USAGE: &str = "usage: iobuf buf or iobuf owner\n";
const CANNOT: &str = "cannot continue\n";

fn top() -> PathBuf {
    Path::new(env!("CARGO_MANIFEST_DIR")).join("../..")
}

fn read(file: &str) -> String {
    fs::read_to_string(top().join(file)).expect("the file is read")
}

/// How many lines an input has: so many, or if `IOBUFS_LARGE` is set, as many as the second number.
fn count(few: usize, many: usize) -> usize {
    if env::var_os("IOBUFS_LARGE").is_some() { many } else { few }
}

fn start(words: &[&OsStr]) -> Command {
    let program = env::var_os("IOBUF_PROGRAM").unwrap_or(env!("CARGO_BIN_EXE_iobuf").into());
    let mut program = Command::new(program);
    program.args(words).stdin(Stdio::piped()).stdout(Stdio::piped()).stderr(Stdio::piped());
    program
}

fn start_half(half: &str) -> Command {
    start(&[half.as_ref()])
}

/// What a program prints and says, and its status.
type Ran = (String, String, Option<i32>);

fn ended(child: Child) -> Ran {
    let done = child.wait_with_output().expect("it is waited for");
    let text = |bytes| String::from_utf8(bytes).expect("it prints text");
    (text(done.stdout), text(done.stderr), done.status.code())
}

/// Gives a program its input, which it needn't read.
fn fed(mut program: Command, input: impl Into<Vec<u8>>) -> Ran {
    let mut child = program.spawn().expect("it starts");
    let (mut stdin, input) = (child.stdin.take().expect("a pipe"), input.into());
    let writer = thread::spawn(move || drop(stdin.write_all(&input)));
    let ran = ended(child);
    writer.join().expect("it writes");
    ran
}

fn run(half: &str, input: impl Into<Vec<u8>>) -> Ran {
    fed(start_half(half), input)
}

/// Compares outputs, and names the first line in which they differ.
fn assert_ran(name: &str, ran: Ran, printed: &str, message: &str, status: i32) {
    let mut lines = ran.0.lines().zip(printed.lines()).zip(1..);
    if let Some(((line, wanted), n)) = lines.find(|((line, wanted), _)| line != wanted) {
        panic!("{name}: line {n} is {line:.100}, not {wanted:.100}");
    }
    assert!(ran.0 == printed, "{name}: {} bytes are printed, not {}", ran.0.len(), printed.len());
    assert_eq!((ran.1.as_str(), ran.2), (message, Some(status)), "{name}");
}

fn assert_prints(name: &str, half: &str, input: impl Into<Vec<u8>>, printed: &str) {
    assert_ran(name, run(half, input), printed, "", 0);
}

/// The blocks of a file, between blank lines, without comments.
fn blocks(text: &str) -> Vec<Vec<&str>> {
    let lines: Vec<_> = text.lines().filter(|it| !it.starts_with('#')).collect();
    lines.split(|it| it.is_empty()).filter(|it| !it.is_empty()).map(<[_]>::to_vec).collect()
}

/// The input of lines `LINE -> REPLY`, and what is printed.
fn session(lines: &[&str]) -> (String, String) {
    let pairs = lines.iter().map(|line| line.split_once(" -> ").unwrap_or((line, "")));
    pairs.map(|(line, reply)| (format!("{line}\n"), format!("{reply}\n"))).unzip()
}

/// Runs the sessions of a file: each line has its reply.
fn assert_sessions(file: &str) {
    let (_, half) = file.rsplit_once('.').expect("an extension");
    let text = read(&format!("tests/{file}"));
    for (lines, number) in blocks(&text).iter().zip(1..) {
        let (input, wanted) = session(lines);
        assert_prints(&format!("{file}, session {number}"), half, input, &wanted);
    }
    assert!(!blocks(&text).is_empty(), "{file} has no session");
}

/// A test for each file.
macro_rules! sessions {
    ($($name:ident $file:literal)+) => {
        mod sessions {
            $(#[test]
            fn $name() {
                super::assert_sessions($file);
            })+

            #[test]
            fn each_file_is_run() {
                super::assert_files(&[$($file),+]);
            }
        }
    };
}

sessions! {
    built "rows/built.buf"
    demotions "rows/demotions.owner"
    every_line "rows/every_line.buf"
    every_step "rows/every_line.owner"
    lines "rows/lines.buf"
    parts "rows/parts.buf"
    read "rows/read.buf"
    recovered "rows/recovered.buf"
    refusals "rows/refusals.owner"
    sample "rows/sample.buf"
    schedules "rows/schedules.owner"
    machines "rows/sessions.owner"
    strings_of_parts "rows/strings_of_parts.buf"
    taken "rows/taken.buf"
    texts "rows/texts.buf"
    views "rows/views.buf"
    every_command "sessions/every_command.buf"
    more_parts "sessions/parts.buf"
    rows "sessions/rows.buf"
    more_texts "sessions/texts.buf"
    more_views "sessions/views.buf"
}

/// Each file is in the list, but those that have no sessions with replies.
fn assert_files(files: &[&str]) {
    for folder in ["rows", "sessions"] {
        for entry in fs::read_dir(top().join("tests").join(folder)).expect("the folder is read") {
            let name = entry.expect("an entry").file_name().into_string().expect("a name");
            let is_run = files.contains(&format!("{folder}/{name}").as_str());
            assert!(is_run || ["machines.owner", "bad_lines"].contains(&name.as_str()), "{folder}/{name} isn't run");
        }
    }
}

#[test]
fn first_example() {
    assert_prints("README", "buf", read("crates/iobuf/stdin"), &read("crates/iobuf/stdout"));
}

/// Each bad line after the lines of its block, and before the same lines, which stay unanswered.
#[test]
fn bad_lines() {
    let text = read("tests/rows/bad_lines");
    for block in blocks(&text) {
        let first = block.iter().position(|it| it.starts_with('"')).expect("a bad line");
        let (before, replies) = session(&block[1..first]);
        for quoted in &block[first..] {
            let line = quoted[1..quoted.len() - 1].replace(r"\r", "\r").replace(r"\t", "\t").replace(r"\0", "\0");
            let ran = run(block[0], format!("{before}{line}\n{before}"));
            assert_ran(quoted, ran, &replies, &format!("line {first}: bad command\n"), 2);
        }
    }
}

/// Of the input nothing is read.
#[test]
fn bad_arguments() {
    let mut cases: Vec<Vec<OsString>> =
        [&[][..], &["bufs"], &["buf", "owner"], &["owner", "buf"], &["buf", "buf"], &[""]]
            .map(|words| words.iter().map(OsString::from).collect())
            .into();
    #[cfg(unix)]
    cases.push(vec![std::os::unix::ffi::OsStringExt::from_vec(vec![0xff])]);
    for words in cases {
        let mut input = File::open(top().join("tests/rows/sample.buf")).expect("the file is read");
        let words: Vec<&OsStr> = words.iter().map(OsString::as_os_str).collect();
        let child = start(&words).stdin(input.try_clone().expect("a handle")).spawn().expect("it starts");
        assert_ran(&format!("{words:?}"), ended(child), "", USAGE, 2);
        assert_eq!(input.stream_position().expect("a file"), 0, "{words:?}");
    }
}

/// The half of the program, an input, what it prints, its message and its status.
type Case = (&'static str, &'static [u8], &'static str, &'static str, i32);

/// A line may end with CR LF, and the last one without; numbers may begin with zeros.
const ENDS: [Case; 9] = [
    ("buf", b"", "", "", 0),
    ("buf", b"new 00 0004 1\r\nshow 0\r\nput 0 -", "ok\npart -+4\nok\n", "", 0),
    ("buf", b"new 0 1 1\r", "", "line 1: bad command\n", 2),
    ("buf", b"new 0 1 1\nnew\n\xff\n", "ok\n", "line 2: bad command\n", 2),
    ("buf", b"new 0 4 1\n\xff\n", "ok\n", CANNOT, 3),
    ("buf", b"new 0 4 1\nshow\n", "ok\n", "line 2: bad command\n", 2),
    ("owner", b"machine 1 9 64\nstop\n", "ok\n", "line 2: bad command\n", 2),
    ("owner", b"freed\n", "", "line 1: bad command\n", 2),
    ("owner", b"machine 1 9 64\n\xff\n", "ok\n", CANNOT, 3),
];

#[test]
fn ends_of_lines() {
    for (half, input, printed, message, status) in ENDS {
        assert_ran(&input.escape_ascii().to_string(), run(half, input), printed, message, status);
    }
}

/// The message comes after the replies.
#[test]
fn messages_come_last() {
    let path = Path::new(env!("CARGO_TARGET_TMPDIR")).join(format!("messages-{}", std::process::id()));
    for (half, input, printed, message, status) in ENDS {
        let file = File::create(&path).expect("a file");
        let mut program = start_half(half);
        program.stdout(file.try_clone().expect("a handle")).stderr(file);
        assert_ran("both", fed(program, input), "", "", status);
        assert_eq!(fs::read_to_string(&path).expect("it is read"), format!("{printed}{message}"));
    }
    fs::remove_file(&path).expect("it is there");
}

#[test]
fn many_lines() {
    let n = count(99_999, 499_999);
    assert_prints(
        "lines",
        "buf",
        format!("new 0 4 1\n{}", "show 0\n".repeat(n)),
        &format!("ok\n{}", "part -+4\n".repeat(n)),
    );
    let commands = "new 0 8 1\nput 0 6162\nfreeze 0 0\nsplit 0 1 1\nshow 0\nshow 1\ndrop 0\ndrop 1\n";
    let replies = format!("{}view 62\nview 61\nok\nok\n", "ok\n".repeat(4));
    assert_prints("commands", "buf", commands.repeat(1250), &replies.repeat(1250));
}

/// Each step looks at the calls of all threads.
#[test]
fn many_steps() {
    for (threads, steps) in [(3, count(99_999, 499_999)), (count(20_000, 200_000), 500)] {
        let step = format!("{} unique 0\n", threads - 1);
        let input = format!("machine {threads} 9 64\n0 new 64 16 1\n{}", step.repeat(steps));
        assert_prints("steps", "owner", input, &format!("ok\nmade 0\n{}", "unique true\n".repeat(steps)));
    }
}

#[test]
fn long_lines() {
    for size in [60_000, 1 << 20, 1 << 25] {
        let digits = "0f1e2d3c".repeat(size / 8 - 1);
        let input = format!("new 0 {} 1\nput 000 {digits}\nshow 0\n", digits.len() / 2);
        assert_prints("a long line", "buf", input, &format!("ok\nok\npart {digits}+0\n"));
    }
    // A list that is adopted keeps its bytes and its capacity.
    let held = "6162".repeat(30_000);
    let input = format!("adopt 0 {held}\nshow 0\nfreeze 0 1\nshow 1\nrecover 1 0\nshow 0\n");
    assert_prints("a list", "buf", input, &format!("ok\npart {held}+0\nok\nview {held}\nok\npart {held}+0\n"));
}

/// A line for each number, one after the other.
fn lines(numbers: impl IntoIterator<Item = usize>, line: impl Fn(usize) -> String) -> String {
    numbers.into_iter().map(line).collect()
}

#[test]
fn many_items() {
    let gathered = lines(0..15, |i| format!(" {i}"));
    let input = lines(0..15, |i| format!("static {i} {i} {}\n", i + 1)) + &format!("gather 15{gathered}\nshow 15\n");
    let bytes = lines(0..15, |i| format!(" {:02x}", 97 + i));
    assert_prints("15 views", "buf", input, &format!("{}text{bytes}\n", "ok\n".repeat(16)));
    let input =
        lines(0..15, |i| format!("new {i} 2 1\nput {i} {i:02x}\n")) + &format!("gathermut 15{gathered}\nshow 15\n");
    let bytes = lines(0..15, |i| format!(" {i:02x}+1"));
    assert_prints("15 buffers", "buf", input, &format!("{}parts{bytes}\n", "ok\n".repeat(31)));
    let items = lines(0..10_000, |i| format!(" i{:02x}", i % 251));
    let bytes = lines(0..10_000, |i| format!("{:02x}", i % 251));
    assert_prints("10,000 items", "buf", format!("build 0 10000{items}\nshow 0\n"), &format!("ok\ntext {bytes}\n"));
    let twice = format!("static 1 0 2\ngather 0{}\nshow 1\n", " 1".repeat(1000));
    assert_prints("a name often", "buf", twice, "ok\nrefused N3 InUse\nview 6162\n");
}

#[test]
fn many_freed_blocks() {
    let made = lines(0..5000, |i| format!("0 new {} 16 1\n0 drop {i}\n", 64 * i + 64));
    let replies = lines(0..5000, |i| format!("made {i}\ndone\n"));
    let blocks = lines(0..5000, |i| format!(" {}/16/1", 64 * i + 64));
    let printed = format!("ok\n{replies}blocks{blocks} records\n");
    assert_prints("5,000 blocks", "owner", format!("machine 1 9 64\n{made}freed\n"), &printed);
}

/// Chunks `ab`, `cd`, .. in turn, of which the first 9,001 bytes are split off, cloned and joined.
#[test]
fn many_chunks() {
    let starts: Vec<usize> = (0..10_000).map(|i| 2 * (i % 13)).collect();
    let appends = lines(starts[1..].iter().copied(), |at| format!("static 0 {at} {}\nappend 1 0\n", at + 2));
    let asked = "clone 1 2\nsplit 2 3 9001\nshow 3\nshow 2\nshow 1\ncoalesce 1 4\nshow 4\n";
    let chunks: Vec<String> = starts.iter().map(|at| format!("{:02x}{:02x}", 97 + at, 98 + at)).collect();
    let (front, back) = chunks[4500].split_at(2);
    let printed = "ok\n".repeat(20_002)
        + &format!("text {} {front}\n", chunks[..4500].join(" "))
        + &format!("text {back} {}\n", chunks[4501..].join(" "))
        + &format!("text {}\nok\nview {}\n", chunks.join(" "), chunks.concat());
    assert_prints("chunks", "buf", format!("static 0 0 2\ngather 1 0\n{appends}{asked}"), &printed);
}

/// Inputs in pieces: after each piece the replies to its whole lines are there, within ten seconds.
fn assert_flushed(half: &str, pieces: &[(&str, &str)]) {
    let mut child = start_half(half).spawn().expect("it starts");
    let (mut stdin, stdout) = (child.stdin.take().expect("a pipe"), child.stdout.take().expect("a pipe"));
    let (to, replies) = mpsc::channel();
    thread::spawn(move || BufReader::new(stdout).bytes().map_while(Result::ok).try_for_each(|byte| to.send(byte)));
    for (piece, wanted) in pieces {
        stdin.write_all(piece.as_bytes()).expect("it is read");
        let next = |_| replies.recv_timeout(Duration::from_secs(10)).ok();
        let reply: Vec<u8> = (0..wanted.len()).map_while(next).collect();
        if reply != wanted.as_bytes() {
            child.kill().expect("it still runs");
        }
        assert_eq!(String::from_utf8_lossy(&reply), *wanted, "{piece}");
    }
    drop(stdin);
    assert_ran(half, ended(child), "", "", 0);
}

#[test]
fn replies_are_flushed() {
    let start =
        [("new 0 4 1\n", "ok\n"), ("put 0 6162\r\nput 0", "ok\n"), (" 63\n", "ok\n"), ("show 0\n", "part 616263+1\n")];
    let long = format!("show 0\nput 0 {}", "61".repeat(3000));
    assert_flushed("buf", &[&start[..], &[(&long, "part 616263+1\n"), ("\n", "refused N4 OutOfRange\n")]].concat());
    let steps = [("machine 1 9 64\n", "ok\n"), ("0 new 64 12 1\n", "made 0\n"), ("freed\n", "blocks records\n")];
    assert_flushed("owner", &[&steps[..], &[("0 put 0 8\n", "done\n")]].concat());
}

#[cfg(target_os = "linux")]
#[test]
fn streams_that_fail() {
    let full = || File::options().write(true).open("/dev/full").expect("a full device");
    let many = "show 0\n".repeat(10_000);
    let inputs =
        [("buf", "new 0 4 1\n"), ("buf", &many), ("buf", "new 0 4 1\nshow\n"), ("owner", "machine 1 9 64\nstop\n")];
    for (half, input) in inputs.into_iter().chain([("owner", "machine 1 9 64\n")]) {
        let mut program = start_half(half);
        program.stdout(full());
        assert_ran(&format!("a full output, {input:.20}"), fed(program, input), "", CANNOT, 3);
    }
    for word in ["buf", "bufs"] {
        let mut program = start_half(word);
        program.stderr(full());
        assert_ran("a full standard error", fed(program, "new\n"), "", "", 2);
    }
    let child = start_half("buf").stdin(File::open("/").expect("a folder")).spawn().expect("it starts");
    assert_ran("an input that can't be read", ended(child), "", CANNOT, 3);
}
