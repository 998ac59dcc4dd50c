//! The examples: those for callers compile without a warning, and all print
//! what the workshop program prints. They need `cc` and `python3`.

use std::ffi::OsStr;
use std::fs;
use std::path::{Path, PathBuf};
use std::process::Command;
use swapboard_tests::pools::{pool_a, pool_b};
use swapboard_tests::program::{of_project, printed_in, run, text, Files, Folder};

/// Pool A at limits 2, 2 as the document prints it.
const ANSWER_A: &str = "served 4 of 5\nchain 0 1 2\nring 3 4\n";
const ANSWER_B: &str = "served 4 of 4\nring 0 3\nring 1 2\n";

/// Standard output of a command that must end with this code.
fn printed_by(command: &mut Command, code: i32) -> String {
    let run = run(command);
    assert_eq!(run.code, Some(code), "{command:?}\n{run:?}");
    run.printed
}

fn compile(source: &Path, program: &Path) {
    let mut cc = Command::new("cc");
    cc.args(["-std=c99", "-Wall", "-Wextra", "-Wpedantic", "-Werror"]);
    cc.arg("-I").arg(of_project("include")).arg(source);
    cc.arg(of_project("target/staticlib/libcapi.a"));
    printed_by(cc.arg("-o").arg(program), 0);
}

/// The example with its limits altered, so that it meets a refusal.
fn altered(folder: &Folder, example: &str, limits: &str, others: &str) -> PathBuf {
    let source = fs::read_to_string(of_project(example)).unwrap();
    assert_eq!(source.matches(limits).count(), 1, "{limits} in {example}");
    let name = Path::new(example).file_name().and_then(OsStr::to_str);
    let path = folder.file(name.unwrap());
    fs::write(&path, source.replace(limits, others)).unwrap();
    path
}

#[test]
fn c_serves_pool_a() {
    let folder = Folder::new();
    let program = folder.file("served");
    compile(&of_project("examples/c/served.c"), &program);
    assert_eq!(printed_by(&mut Command::new(program), 0), ANSWER_A);
}

#[test]
fn c_tells_a_refusal() {
    let folder = Folder::new();
    let program = folder.file("served");
    let source = altered(&folder, "examples/c/served.c", "LP = 2 ", "LP = 15 ");
    compile(&source, &program);
    assert_eq!(printed_by(&mut Command::new(program), 1), "refused 7 0\n");
}

fn python(source: &Path) -> Command {
    let mut python = Command::new("python3");
    python.arg(source);
    python
}

fn build_shared(shared: &Path) {
    let mut cc = Command::new("cc");
    cc.args(["-shared", "-Wl,--whole-archive"]);
    cc.arg(of_project("target/staticlib/libcapi.a"));
    cc.args(["-Wl,--no-whole-archive", "-o"]);
    printed_by(cc.arg(shared), 0);
}

#[test]
fn python_serves_pool_a() {
    let source = of_project("examples/python/served.py");
    assert_eq!(printed_by(&mut python(&source), 0), ANSWER_A);
    let folder = Folder::new();
    let shared = folder.file("shared.so");
    build_shared(&shared);
    assert_eq!(printed_by(python(&source).arg(shared), 0), ANSWER_A);
}

#[test]
fn python_tells_a_refusal() {
    let folder = Folder::new();
    let shared = folder.file("shared.so");
    build_shared(&shared);
    let example = "examples/python/served.py";
    let source = altered(&folder, example, "LC, LP = 2, 2", "LC, LP = 15, 2");
    let refused = "refused 7 0\n";
    assert_eq!(printed_by(python(&source).arg(shared), 1), refused);
}

/// The files of an example folder are those the document tells, and the program
/// prints their answer there.
fn expect_folder(folder: &str, files: &Files, answer: &str) {
    let folder = of_project(folder);
    let file = |name: &str| fs::read(folder.join(name)).ok();
    assert_eq!(file("pool.bin"), files.pool);
    assert_eq!(file("limits.bin"), files.limits);
    assert_eq!(text(files), answer);
    assert_eq!(printed_in(&folder), answer);
}

#[test]
fn folders_of_pools() {
    let a = Files::new(&pool_a(), 2, 2);
    expect_folder("examples/pool-a", &a, ANSWER_A);
    let b = Files::new(&pool_b(), 3, 0);
    expect_folder("examples/pool-b", &b, ANSWER_B);
}
