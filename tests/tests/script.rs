//! The script `swap`: it runs the program from anywhere, builds it where it must, and
//! ends with a status.

use std::fs::{self, File};
use std::os::unix::fs::{symlink, PermissionsExt};
use std::path::Path;
use std::process::Command;
use std::time::{Duration, SystemTime};
use swapboard_tests::pools::{pool_a, pool_b};
use swapboard_tests::program::{of_project, run, text, Files, Folder, Run};

fn answer_a() -> String {
    text(&Files::new(&pool_a(), 2, 2))
}

fn answer_b() -> String {
    text(&Files::new(&pool_b(), 3, 0))
}

#[track_caller]
fn expect_printed(run: Run, printed: &str) {
    assert_eq!((&run.printed[..], &run.said[..]), (printed, ""), "{run:?}");
    assert_eq!(run.code, Some(0), "{run:?}");
}

#[track_caller]
fn expect_failed(run: Run) {
    assert_eq!((&run.printed[..], run.code), ("", Some(1)), "{run:?}");
    let told = run.said.lines().any(|line| line.starts_with("swap: "));
    assert!(told, "{run:?}");
}

#[test]
fn from_anywhere() {
    let script = of_project("swap");
    let elsewhere = Folder::new();
    let mut command = Command::new(&script);
    command.arg(of_project("examples/pool-a"));
    let mut linked = Command::new(elsewhere.file("link"));
    linked.arg(of_project("examples/pool-a"));
    symlink(&script, elsewhere.file("link")).unwrap();
    for command in [&mut command, &mut linked] {
        expect_printed(run(command.current_dir(elsewhere.path())), &answer_a());
    }
    let mut command = Command::new(&script);
    command.arg("pool-b").current_dir(of_project("examples"));
    expect_printed(run(&mut command), &answer_b());
    let mut command = Command::new(&script);
    command.current_dir(of_project("examples/pool-b"));
    expect_printed(run(&mut command), &answer_b());
}

#[test]
fn bad_folders() {
    let script = of_project("swap");
    expect_failed(run(Command::new(&script).arg("no such folder")));
    expect_failed(run(Command::new(&script).args([".", "."])));
}

/// A project with a source, a program and an `rt` of our own beside the script.
struct Project(Folder);

impl Project {
    /// The program is a minute old, the source an hour.
    fn new(program: &str) -> Self {
        let project = Project(Folder::new());
        for path in ["crates/one/src", "crates/swap", "target/bin", "tools"] {
            fs::create_dir_all(project.0.file(path)).unwrap();
        }
        fs::copy(of_project("swap"), project.0.file("swap")).unwrap();
        for path in ["crates/one/src/main.rt", "crates.txt"] {
            fs::write(project.0.file(path), "").unwrap();
        }
        for path in ["crates/one/src/main.rt", "crates/one/src", "crates/one"] {
            project.age(path, 60);
        }
        project.age("crates", 60);
        project.age("crates.txt", 60);
        project.put("target/bin/swap", program);
        project.age("target/bin/swap", 1);
        // A build that makes no program anew and counts itself.
        project.rt("echo built >>calls");
        project
    }

    /// A shell script of these words.
    fn put(&self, path: &str, words: &str) {
        let path = self.0.file(path);
        fs::write(&path, format!("#!/bin/sh\n{words}\n")).unwrap();
        fs::set_permissions(&path, PermissionsExt::from_mode(0o755)).unwrap();
    }

    /// It is called in the program's crate; the words stand at the project's root.
    fn rt(&self, words: &str) {
        self.put("tools/rt", &format!("cd ../..\n{words}"));
    }

    fn age(&self, path: &str, minutes: u64) {
        let time = SystemTime::now() - Duration::from_secs(60 * minutes);
        let file = File::open(self.0.file(path)).unwrap();
        file.set_modified(time).unwrap();
    }

    /// Runs the script with the project's `rt` in front of any other.
    fn run(&self) -> Run {
        let path = std::env::var("PATH").unwrap_or_default();
        let path = format!("{}:{path}", self.0.file("tools").display());
        self.run_at(&path)
    }

    fn run_at(&self, path: &str) -> Run {
        let mut script = Command::new("/bin/bash");
        script.arg(self.0.file("swap")).arg(self.0.path());
        run(script.env("PATH", path))
    }

    fn builds(&self) -> usize {
        let calls = fs::read_to_string(self.0.file("calls"));
        calls.unwrap_or_default().lines().count()
    }
}

#[test]
fn a_program_that_is_up_to_date_is_not_built() {
    let project = Project::new("echo ran");
    expect_printed(project.run(), "ran\n");
    assert_eq!(project.builds(), 0);
    // Without rt, too.
    fs::remove_file(project.0.file("tools/rt")).unwrap();
    let tools = project.0.file("tools");
    for tool in ["readlink", "dirname", "find"] {
        symlink(tool_path(tool), tools.join(tool)).unwrap();
    }
    expect_printed(project.run_at(tools.to_str().unwrap()), "ran\n");
    // And none is built where no rt is to be found.
    project.age("crates.txt", 0);
    expect_failed(project.run_at(tools.to_str().unwrap()));
}

fn tool_path(tool: &str) -> String {
    let mut shell = Command::new("sh");
    let run = run(shell.args(["-c", "command -v \"$0\"", tool]));
    run.printed.trim_end().to_owned()
}

/// A file newer than the program, a list of crates, and a folder that a file was taken
/// out of: each is built once, though the build leaves the program as it was.
#[test]
fn a_program_older_than_its_sources_is_built_once() {
    for newer in ["crates/one/src/main.rt", "crates.txt", "crates/one/src"] {
        let project = Project::new("echo ran");
        project.age(newer, 0);
        for _ in 0..3 {
            expect_printed(project.run(), "ran\n");
            assert_eq!(project.builds(), 1, "{newer}");
        }
    }
}

#[test]
fn what_is_built_is_run() {
    for old in [true, false] {
        let project = Project::new("echo old");
        project.rt("printf '#!/bin/sh\\necho new\\n' >target/bin/swap && chmod +x target/bin/swap");
        if old {
            project.age("target/bin/swap", 120);
        } else {
            fs::remove_file(project.0.file("target/bin/swap")).unwrap();
        }
        expect_printed(project.run(), "new\n");
    }
}

/// What changes while the program is built is newer than the program. A file's time
/// may lag a few milliseconds behind the clock.
#[test]
fn sources_changed_during_a_build() {
    let project = Project::new("echo ran");
    project.rt("echo built >>calls; sleep 0.1; touch crates.txt");
    project.age("crates.txt", 0);
    for builds in 1..3 {
        expect_printed(project.run(), "ran\n");
        assert_eq!(project.builds(), builds);
    }
}

/// An old program is not run in the place of one that can't be built.
#[test]
fn builds_that_fail() {
    for (rt, program) in [("exit 1", true), ("exit 1", false), ("exit 0", false)] {
        let project = Project::new("echo ran");
        project.rt(rt);
        project.age("crates.txt", 0);
        if !program {
            fs::remove_file(project.0.file("target/bin/swap")).unwrap();
        }
        expect_failed(project.run());
    }
}

fn expect_status(program: &str, printed: &str, said: &str) {
    let run = Project::new(program).run();
    let told = (&run.printed[..], &run.said[..], run.code);
    assert_eq!(told, (printed, said, Some(1)), "{program}");
}

/// Anything said, and any end but that with 0.
#[test]
fn programs_that_fail() {
    expect_status("echo swap: no >&2", "", "swap: no\n");
    expect_status("echo served; echo swap: no >&2", "served\n", "swap: no\n");
    expect_status("echo no >&2; exit 3", "", "no\n");
    let said = |status| format!("swap: the program ended with status {status}\n");
    expect_status("exit 3", "", &said(3));
    expect_status("kill -9 $$", "", &said(137));
    expect_status("echo served; kill -11 $$", "served\n", &said(139));
}

/// The output is the script's own: it comes as it is written, and whole.
#[test]
fn output_goes_straight_on() {
    let project = Project::new("test -p /dev/stdout || echo none; printf 'no line end'");
    let output = Path::new("output");
    let mut script = Command::new("/bin/bash");
    let file = File::create(project.0.path().join(output)).unwrap();
    script.arg(project.0.file("swap")).arg(project.0.path());
    expect_printed(run(script.stdout(file)), "");
    let written = fs::read_to_string(project.0.path().join(output)).unwrap();
    assert_eq!(written, "none\nno line end");
}
