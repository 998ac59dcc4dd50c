//! The workshop program: runs of it in folders of their own, by itself and through
//! the script, and the text that the oracle expects of it.

use crate::large;
use crate::oracle::exchange::Limits;
use crate::oracle::plan::{cleared, Cleared};
use crate::oracle::pool::{read, Pool};
use crate::refusal::{refuse, Refusal};
use std::io::ErrorKind;
use std::path::{Path, PathBuf};
use std::process::Command;
use std::sync::atomic::{AtomicUsize, Ordering};
use std::{env, fs, process};

/// The environment variable that names another program than the project's.
const PROGRAM: &str = "SWAPBOARD_PROGRAM";
/// "The program reads 192 bytes", which "count as the whole file".
pub const COUNTED: usize = 192;
/// The most places for which all legal plans are soon compared.
const BRUTE_FORCE_PLACES: usize = 7;

/// What the program finds in its folder; `None` is a missing file.
#[derive(Clone, Debug)]
pub struct Files {
    pub pool: Option<Vec<u8>>,
    pub limits: Option<Vec<u8>>,
}

impl Files {
    pub fn new(pool: &[u8], lc: u8, lp: u8) -> Self {
        Files::of(pool, &[lc, lp])
    }

    pub fn of(pool: &[u8], limits: &[u8]) -> Self {
        Files {
            pool: Some(pool.to_vec()),
            limits: Some(limits.to_vec()),
        }
    }
}

/// The whole output that the document asks for.
pub fn text(files: &Files) -> String {
    match answer(files) {
        Ok((pool, cleared)) => text_of_plan(&pool, &cleared),
        Err(refusal) => format!("refused {} {}\n", refusal.number, refusal.at),
    }
}

/// "A missing file reads as empty"; a pool is refused before the limits are.
fn answer(files: &Files) -> Result<(Pool, Cleared), Refusal> {
    let bytes = files.pool.as_deref().unwrap_or_default();
    let pool = read(&bytes[..bytes.len().min(COUNTED)])?;
    let limits = read_limits(files.limits.as_deref().unwrap_or_default())?;
    let cleared = if pool.places <= BRUTE_FORCE_PLACES {
        cleared(&pool, limits)
    } else {
        large::cleared(&pool, limits)
    };
    Ok((pool, cleared))
}

/// "Lc, Lp; other than two bytes prints number 7."
fn read_limits(bytes: &[u8]) -> Result<Limits, Refusal> {
    let &[lc, lp] = bytes else {
        return refuse(7, 0);
    };
    let limits = Limits::new(lc, lp);
    limits.test()?;
    Ok(limits)
}

/// "`served S of M` (M: all members), then one line for each record."
fn text_of_plan(pool: &Pool, cleared: &Cleared) -> String {
    let members = pool.places - pool.houses;
    let mut text = format!("served {} of {members}\n", cleared.served);
    for record in cleared.plan.chunks(16) {
        text += &line_of_record(record);
    }
    text
}

/// "`ring` or `chain` and its places in order, parted by one space."
fn line_of_record(record: &[u8]) -> String {
    let word = if record[14] == 82 { "ring" } else { "chain" };
    let mut line = String::from(word);
    for place in record[..14].iter().take_while(|&&byte| byte != 255) {
        line += &format!(" {place}");
    }
    line + "\n"
}

/// A folder of its own below the one for temporary files, gone when dropped.
pub struct Folder {
    path: PathBuf,
}

impl Folder {
    /// Takes the next free name: an earlier process may have had the same id.
    pub fn new() -> Self {
        static NEXT: AtomicUsize = AtomicUsize::new(0);
        loop {
            let number = NEXT.fetch_add(1, Ordering::Relaxed);
            let name = format!("swapboard-{}-{number}", process::id());
            let path = whole(env::temp_dir()).join(name);
            match fs::create_dir(&path) {
                Ok(()) => return Folder { path },
                Err(error) if error.kind() == ErrorKind::AlreadyExists => {}
                Err(error) => panic!("no folder {}: {error}", path.display()),
            }
        }
    }

    pub fn path(&self) -> &Path {
        &self.path
    }

    pub fn file(&self, name: &str) -> PathBuf {
        self.path.join(name)
    }

    /// With these files; one that is missing is left out.
    pub fn with(files: &Files) -> Self {
        let folder = Folder::new();
        let both = [("pool.bin", &files.pool), ("limits.bin", &files.limits)];
        for (name, bytes) in both {
            if let Some(bytes) = bytes {
                fs::write(folder.file(name), bytes).unwrap();
            }
        }
        folder
    }

    fn holds(&self, name: &str, bytes: Option<&Vec<u8>>) -> bool {
        fs::read(self.file(name)).ok().as_ref() == bytes
    }
}

impl Default for Folder {
    fn default() -> Self {
        Folder::new()
    }
}

impl Drop for Folder {
    fn drop(&mut self) {
        // A folder left behind does no harm, and a second panic would hide the first.
        let _ = fs::remove_dir_all(&self.path);
    }
}

/// What the program prints in a folder with these files, which it must leave
/// as they are.
pub fn printed(files: &Files) -> String {
    let folder = Folder::with(files);
    let printed = printed_in(folder.path());
    let kept = folder.holds("pool.bin", files.pool.as_ref())
        && folder.holds("limits.bin", files.limits.as_ref());
    assert!(kept, "the program changed its files: {files:?}");
    printed
}

/// All that the program prints in a folder, where it must say nothing else.
pub fn printed_in(folder: &Path) -> String {
    let mut program = Command::new(program());
    let run = run(program.current_dir(folder));
    assert!(run.said.is_empty() && run.code == Some(0), "{run:?}");
    run.printed
}

/// What came of a command: standard output and standard error as text, in which a
/// byte that is none shows as another, and the exit code, none after a signal.
#[derive(Debug)]
pub struct Run {
    pub printed: String,
    pub said: String,
    pub code: Option<i32>,
}

pub fn run(command: &mut Command) -> Run {
    let output = command.output();
    let output = output.unwrap_or_else(|error| panic!("{command:?}: {error}"));
    let text = |bytes| String::from_utf8_lossy(bytes).into_owned();
    Run {
        printed: text(&output.stdout),
        said: text(&output.stderr),
        code: output.status.code(),
    }
}

/// A path of the project, told from its root; whole, because programs run in other
/// folders.
pub fn of_project(path: &str) -> PathBuf {
    whole(Path::new(env!("CARGO_MANIFEST_DIR")).join("..").join(path))
}

pub fn program() -> PathBuf {
    env::var_os(PROGRAM).map_or_else(
        || of_project("target/bin/swap"),
        |path| whole(PathBuf::from(path)),
    )
}

fn whole(path: PathBuf) -> PathBuf {
    let whole = fs::canonicalize(&path);
    whole.unwrap_or_else(|error| panic!("no {}: {error}", path.display()))
}
