//! `.ci/believed`: nothing that is promised to the public names an inner definition.

use std::fs;
use std::process::Command;
use swapboard_tests::program::{of_project, run, Folder, Run};

/// What the script says of a crate with an inner definition `Inner` and this source.
fn believed(source: &str) -> Run {
    let project = Folder::new();
    for path in [
        ".ci",
        "crates/kep/specs",
        "crates/one/specs/computed",
        "crates/one/src",
    ] {
        fs::create_dir_all(project.file(path)).unwrap();
    }
    fs::copy(of_project(".ci/believed"), project.file(".ci/believed")).unwrap();
    for path in ["kep/specs/Graph", "one/specs/One", "one/specs/computed/Two"] {
        fs::write(project.file(&format!("crates/{path}.antt")), "").unwrap();
    }
    let lines = format!("ghost use Rattle.one.specs.inner.Three.{{\n    Inner,\n    Other,\n}};\nghost use Rattle.one.specs.inner.Whole;\n\n{source}");
    fs::write(project.file("crates/one/src/lib.rt"), lines).unwrap();
    run(Command::new(project.file(".ci/believed")).current_dir(project.path()))
}

#[test]
fn inner_names() {
    let told = [
        "pub fn f(n: u8) -> u8\n    ensures { Inner n result }\n{\n    n\n}\n",
        "pub struct S {\n    n: u8,\n    ghost small: { Inner n },\n}\n",
        "pub struct S;\n\nimpl From<u8> for S {\n    ghost from_gives = { λ n s. Inner n };\n}\n",
        "impl From<u8> for u16 {\n    ghost from_gives =\n        { λ n m. Inner n };\n}\n",
        "pub trait Law {\n    ghost law = { λ n. Other n };\n}\n",
        "pub trait Law {\n    fn f(&self) -> u8\n        ensures { Inner result };\n}\n",
        "pub fn f(n: u8) -> u8\n    ensures { Whole.anything n result }\n{\n    n\n}\n",
        "mod two {\n    struct S;\n}\n\npub struct S;\n\nimpl S {\n    ghost law = { λ n. Inner n };\n}\n",
    ];
    for source in told {
        let run = believed(source);
        assert_eq!(run.code, Some(1), "{source}{run:?}");
        assert!(run.printed.contains(" names the inner "), "{run:?}");
    }
    let untold = [
        "pub struct S(pub u16);\n\nstruct T {\n    n: u8,\n    ghost small: { Inner n },\n}\n",
        "pub fn f() {}\n\nfn g(n: u8)\n    requires { Inner n }\n{\n}\n",
        "fn f(n: u8) -> u8\n    ensures { Inner n result }\n{\n    n\n}\n",
        "pub(crate) struct S {\n    n: u8,\n    ghost small: { Inner n },\n}\n",
        "struct S;\n\nimpl From<u8> for S {\n    ghost from_gives = { λ n s. Inner n };\n}\n",
        "pub struct S {\n    n: u8,\n    ghost small: { Outer n },\n}\n\nfn g(n: u8)\n    requires { Inner n }\n{\n}\n",
    ];
    for source in untold {
        let run = believed(source);
        assert_eq!(
            (&run.printed[..], run.code),
            ("", Some(0)),
            "{source}{run:?}"
        );
    }
}
