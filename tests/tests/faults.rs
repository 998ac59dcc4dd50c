//! The workshop program where files can't be read and output can't be written. The
//! program tells a fault on standard error, and but for output that nobody reads only the script
//! gives it a status.

use std::fs::{self, OpenOptions};
use std::io::{pipe, ErrorKind, Write};
use std::os::unix::fs::symlink;
use std::path::Path;
use std::process::{Command, Stdio};
use std::thread::sleep;
use std::time::Duration;
use swapboard_tests::layout::{CLASSES_TAKEN, GRADE, MACHINE_NUMBER, MOST_PLACES, RECORD};
use swapboard_tests::pools::{bytes_of, bytes_of_arcs, one_ring, pool_a, random_records};
use swapboard_tests::program::{of_project, program, run, text, Files, Folder, Run, COUNTED};
use swapboard_tests::random::Random;

const NAMES: [&str; 2] = ["pool.bin", "limits.bin"];

fn files_a() -> Files {
    Files::new(&pool_a(), 2, 2)
}

fn by_itself(folder: &Path) -> Command {
    let mut command = Command::new(program());
    command.current_dir(folder);
    command
}

fn by_script(folder: &Path) -> Command {
    let mut command = Command::new(of_project("swap"));
    command.arg(folder);
    command
}

/// The command after words of the shell, as a limit or a redirection of its output.
fn in_shell(words: &str, command: Command) -> Command {
    let mut shell = Command::new("bash");
    shell.args(["-c", words, "bash"]);
    shell.arg(command.get_program()).args(command.get_args());
    if let Some(folder) = command.get_current_dir() {
        shell.current_dir(folder);
    }
    shell
}

#[track_caller]
fn expect(run: Run, printed: &str, said: &str, code: i32) {
    assert_eq!(run.printed, printed, "{run:?}");
    assert_eq!(run.said, said, "{run:?}");
    assert_eq!(run.code, Some(code), "{run:?}");
}

/// Both ways tell one line and print nothing.
#[track_caller]
fn expect_fault(folder: &Folder, line: &str) {
    let said = format!("swap: {line}\n");
    expect(run(&mut by_itself(folder.path())), "", &said, 0);
    expect(run(&mut by_script(folder.path())), "", &said, 1);
}

/// Both ways print the answer and say nothing.
#[track_caller]
fn expect_answer(folder: &Folder, printed: &str) {
    expect(run(&mut by_itself(folder.path())), printed, "", 0);
    expect(run(&mut by_script(folder.path())), printed, "", 0);
}

/// An answer is one, a plan or a refusal.
#[test]
fn answers_end_with_zero() {
    let plan = "served 4 of 5\nchain 0 1 2\nring 3 4\n";
    expect_answer(&Folder::with(&files_a()), plan);
    let refused = Files::new(&pool_a()[1..], 2, 2);
    expect_answer(&Folder::with(&refused), "refused 1 0\n");
    for (byte, value, printed) in [
        (3 * RECORD + MACHINE_NUMBER, 0, "refused 18 3\n"),
        (5 * RECORD + GRADE, 101, "refused 19 5\n"),
        (CLASSES_TAKEN, 1, "refused 20 0\n"),
    ] {
        let mut pool = pool_a();
        pool[byte] = value;
        expect_answer(&Folder::with(&Files::new(&pool, 2, 2)), printed);
    }
    expect_answer(&Folder::new(), "refused 7 0\n");
}

#[test]
fn links_that_lead_nowhere_are_missing_files() {
    for (name, printed) in NAMES.into_iter().zip(["served 0 of 0\n", "refused 7 0\n"]) {
        let folder = Folder::with(&files_a());
        fs::remove_file(folder.file(name)).unwrap();
        symlink("nowhere.bin", folder.file(name)).unwrap();
        expect_answer(&folder, printed);
    }
}

/// Puts something that can be opened and not read, or not even opened, in the place
/// of a file.
fn spoil(folder: &Folder, name: &str, opens: bool) -> String {
    let _ = fs::remove_file(folder.file(name));
    if opens {
        fs::create_dir(folder.file(name)).unwrap();
        return format!("{name}: Is a directory");
    }
    symlink(name, folder.file(name)).unwrap();
    format!("{name}: Too many levels of symbolic links")
}

#[test]
fn files_that_cannot_be_read() {
    for opens in [true, false] {
        for name in NAMES {
            let folder = Folder::with(&files_a());
            expect_fault(&folder, &spoil(&folder, name, opens));
        }
        let folder = Folder::new();
        let line = spoil(&folder, "pool.bin", opens);
        spoil(&folder, "limits.bin", opens);
        expect_fault(&folder, &line);
    }
}

/// What can't be read is told even beside a file that would be refused.
#[test]
fn files_that_cannot_be_read_come_before_refusals() {
    for bad in [Files::of(&[1], &[2, 2]), Files::of(&pool_a(), &[15])] {
        for name in NAMES {
            let folder = Folder::with(&bad);
            expect_fault(&folder, &spoil(&folder, name, true));
        }
    }
}

/// What the program prints where a file comes a few bytes at a time, through standard
/// input; it need not read all of them.
fn printed_in_pieces(files: &Files, name: &str, piece: usize) -> String {
    let folder = Folder::with(files);
    let bytes = fs::read(folder.file(name)).unwrap();
    fs::remove_file(folder.file(name)).unwrap();
    symlink("/dev/stdin", folder.file(name)).unwrap();
    let mut program = by_itself(folder.path());
    program.stdin(Stdio::piped()).stdout(Stdio::piped());
    let mut child = program.spawn().unwrap();
    let mut stdin = child.stdin.take().unwrap();
    for part in bytes.chunks(piece) {
        match stdin.write_all(part) {
            Err(error) if error.kind() == ErrorKind::BrokenPipe && bytes.len() > COUNTED => break,
            written => written.unwrap(),
        }
        sleep(Duration::from_millis(2));
    }
    drop(stdin);
    let output = child.wait_with_output().unwrap();
    String::from_utf8(output.stdout).unwrap()
}

#[test]
fn files_in_pieces() {
    for name in NAMES {
        for piece in [1, 7, 40] {
            let printed = printed_in_pieces(&files_a(), name, piece);
            assert_eq!(printed, text(&files_a()), "{name} {piece}");
        }
    }
}

/// Pools around the most records and around the bytes that count, where a piece may end in
/// the middle of a field.
#[test]
fn long_pools_in_pieces() {
    let random = &mut Random::new(701);
    let records = bytes_of(&random_records(random, 20, 2));
    let most = MOST_PLACES * RECORD;
    for length in [
        most - 1,
        most,
        most + RECORD,
        COUNTED - 1,
        COUNTED,
        COUNTED + 1,
        COUNTED + 9,
    ] {
        let files = Files::new(&records[..length], 2, 2);
        for piece in [7, RECORD - 1, RECORD, 50, most, COUNTED - 1, COUNTED] {
            let printed = printed_in_pieces(&files, "pool.bin", piece);
            assert_eq!(printed, text(&files), "{length} {piece}");
        }
    }
}

/// "The program reads 192 bytes", which "count as the whole file": what stands behind them
/// is not read, and 16 records are too many.
#[test]
fn a_file_without_an_end() {
    let folder = Folder::with(&files_a());
    fs::remove_file(folder.file("pool.bin")).unwrap();
    symlink("/dev/zero", folder.file("pool.bin")).unwrap();
    expect_answer(&folder, "refused 2 0\n");
}

#[test]
fn output_that_is_full() {
    let folder = Folder::with(&files_a());
    let full = || OpenOptions::new().write(true).open("/dev/full").unwrap();
    let said = "swap: standard output: No space left on device\n";
    expect(run(by_itself(folder.path()).stdout(full())), "", said, 0);
    expect(run(by_script(folder.path()).stdout(full())), "", said, 1);
}

#[test]
fn output_that_is_closed() {
    let folder = Folder::with(&files_a());
    let closed = |command| run(&mut in_shell(r#"exec "$@" >&-"#, command));
    let said = "swap: standard output: Bad file descriptor\n";
    expect(closed(by_itself(folder.path())), "", said, 0);
    let said = "swap: standard output is closed\n";
    expect(closed(by_script(folder.path())), "", said, 1);
}

/// A pipe that nobody reads any more: the program ends with the status by which shells tell the signal
/// for it, which programs of today's Rattle ignore.
#[test]
fn output_that_nobody_reads() {
    let folder = Folder::with(&files_a());
    let unread = || pipe().unwrap().1;
    let alone = run(by_itself(folder.path()).stdout(unread()));
    expect(alone, "", "", 141);
    let said = "swap: the program ended with status 141\n";
    expect(run(by_script(folder.path()).stdout(unread())), "", said, 1);
}

/// A file with room for four bytes more: they are written, and the rest is not.
#[test]
fn output_that_gets_full() {
    for (command, code) in [(by_itself as fn(&Path) -> Command, 0), (by_script, 1)] {
        let folder = Folder::with(&files_a());
        let file = folder.file("output");
        fs::write(&file, [b'.'; 1020]).unwrap();
        let words = r#"trap '' XFSZ; ulimit -f 1; exec "$@" >>output"#;
        let mut shell = in_shell(words, command(folder.path()));
        let run = run(shell.current_dir(folder.path()));
        expect(run, "", "swap: standard output: File too large\n", code);
        assert_eq!(fs::read(&file).unwrap()[1020..], *b"serv");
    }
}

/// The stack that is promised to be enough, with a ring for which the search goes
/// fourteen deep.
#[test]
fn stack_of_the_program() {
    let files = Files::new(&bytes_of_arcs(0, &one_ring(14, 0)), 14, 14);
    let folder = Folder::with(&files);
    let command = by_itself(folder.path());
    let mut shell = in_shell(r#"ulimit -s 256; exec env -i "$@""#, command);
    expect(run(&mut shell), &text(&files), "", 0);
}

/// The program under `strace`, which answers its calls as it is told: `fault` is what
/// it injects into calls that name this file, or any. What it says itself is left out.
fn injected(folder: &Folder, fault: &str, file: Option<&str>) -> Run {
    let mut strace = Command::new("strace");
    strace.args(["-o", "/dev/null", "-e"]);
    strace.arg(format!("inject={fault}"));
    if let Some(name) = file {
        strace.args(["-P", name]);
    }
    strace.arg(program()).current_dir(folder.path());
    let mut run = run(&mut strace);
    let said = run.said.split_inclusive('\n');
    run.said = said.filter(|line| !line.starts_with("strace: ")).collect();
    run
}

/// Whether `strace` is there and may inject. Where not, the tests above stand alone.
fn can_inject() -> bool {
    let mut strace = Command::new("strace");
    strace.args(["-o", "/dev/null", "-e", "inject=fsync:error=EIO", "true"]);
    let asked = strace.output();
    let can = asked.is_ok_and(|output| output.status.success());
    if !can {
        eprintln!("strace is not there, or may not inject: no fault is injected");
    }
    can
}

/// Each file is read twice, the second time to its end; 999 interruptions in a row are
/// borne, 1,000 are not.
#[test]
fn injected_faults_of_files() {
    if !can_inject() {
        return;
    }
    let folder = Folder::with(&files_a());
    let answer = text(&files_a());
    for name in NAMES {
        let inject = |fault: &str| injected(&folder, fault, Some(name));
        let said = |text: &str| format!("swap: {name}: {text}\n");
        for fault in ["read:error=EIO:when=1", "read:error=EIO:when=2"] {
            expect(inject(fault), "", &said("Input/output error"), 0);
        }
        for (error, text) in [
            ("EACCES", "Permission denied"),
            ("EMFILE", "Too many open files"),
            ("EIO", "Input/output error"),
        ] {
            expect(inject(&format!("openat:error={error}")), "", &said(text), 0);
        }
        for call in ["read", "openat"] {
            for borne in ["when=1", "when=1..3", "when=1..999"] {
                let fault = format!("{call}:error=EINTR:{borne}");
                expect(inject(&fault), &answer, "", 0);
            }
            let fault = format!("{call}:error=EINTR:when=1..1000");
            expect(inject(&fault), "", &said("Interrupted system call"), 0);
        }
        expect(inject("read:error=EINTR:when=2..1000"), &answer, "", 0);
    }
}

#[test]
fn injected_faults_of_output() {
    if !can_inject() {
        return;
    }
    let folder = Folder::with(&files_a());
    let answer = text(&files_a());
    let inject = |fault: &str| injected(&folder, fault, None);
    for borne in ["when=1", "when=1..3", "when=1..999"] {
        let fault = format!("write:error=EINTR:{borne}");
        expect(inject(&fault), &answer, "", 0);
    }
    let said = "swap: standard output: Interrupted system call\n";
    expect(inject("write:error=EINTR:when=1..1000"), "", said, 0);
    let said = "swap: standard output: No space left on device\n";
    expect(inject("write:error=ENOSPC:when=1"), "", said, 0);
    // Five bytes are said to be written: the others follow.
    expect(inject("write:retval=5:when=1"), &answer[5..], "", 0);
}
