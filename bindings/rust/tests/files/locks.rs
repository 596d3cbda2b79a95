//! Who else may have a page file: nobody, or others who read.
use crate::{Folder, Outcome};
use hojzmated::{Device, FileOptions, FilePages, OpenError, Pager};
use std::fs::{File, hard_link, rename};
use std::io::{BufRead, BufReader, ErrorKind, Read};
use std::path::Path;
use std::process::{Child, Command, Stdio};
use std::{env, io, thread, time::Duration};

const OPTIONS: FileOptions = FileOptions::new(512).grown_to(8);
const READING: FileOptions = FileOptions::new(512).read_only(true);

fn is_in_use(opened: Result<FilePages, OpenError>) -> bool {
    match opened {
        Err(OpenError::InUse) => true,
        Err(other) => panic!("{other}"),
        Ok(_) => false,
    }
}

#[test]
fn a_second_pager_of_this_process_is_refused() -> Outcome {
    let folder = Folder::new();
    let (path, link) = (folder.join("pages"), folder.join("link"));
    let pages = OPTIONS.create(&path)?;
    let pager = Pager::new(&pages.config(4), pages.without_log())?;
    hard_link(&path, &link)?;
    for name in [&path, &link] {
        assert!(is_in_use(OPTIONS.open(name)));
        assert!(is_in_use(OPTIONS.create(name)));
        assert!(is_in_use(READING.open(name)));
        let file = File::options().read(true).write(true).open(name)?;
        assert!(is_in_use(OPTIONS.over(file)));
    }
    // What was refused has taken no lock with it.
    pager.write(1)?.put(0, b"one", 0)?;
    pager.checkpoint()?;
    assert!(is_in_use(OPTIONS.open(&path)));
    drop(pager);
    OPTIONS.open(&link)?;
    // The lock is of the file, and not of its name.
    let pages = OPTIONS.open(&path)?;
    let other = OPTIONS.create(folder.join("other"))?;
    rename(folder.join("other"), &path)?;
    assert!(is_in_use(OPTIONS.open(&link)) && is_in_use(OPTIONS.open(&path)));
    drop(pages);
    assert!(!is_in_use(OPTIONS.open(&link)) && is_in_use(OPTIONS.open(&path)));
    drop(other);
    Ok(())
}

/// `flock` takes one descriptor and its copies for one owner.
#[test]
fn copies_of_a_descriptor_are_refused() -> Outcome {
    let folder = Folder::new();
    let file = File::create_new(folder.join("pages"))?;
    drop(file);
    let options = File::options().read(true).write(true).clone();
    let file = options.open(folder.join("pages"))?;
    let (copy, third) = (file.try_clone()?, file.try_clone()?);
    let pages = OPTIONS.over(file)?;
    assert!(is_in_use(OPTIONS.over(copy)));
    assert!(is_in_use(OPTIONS.open(folder.join("pages"))));
    // A copy that is open still does not keep the lock.
    let file = pages.into_file();
    assert!(!is_in_use(OPTIONS.open(folder.join("pages"))));
    drop(OPTIONS.over(third)?);
    drop(OPTIONS.over(file)?);
    Ok(())
}

#[test]
fn readers_share_a_file() -> Outcome {
    let folder = Folder::new();
    let path = folder.join("pages");
    OPTIONS.create(&path)?;
    let readers = (READING.open(&path)?, READING.open(&path)?);
    assert!(is_in_use(OPTIONS.open(&path)));
    drop(readers.0);
    assert!(is_in_use(OPTIONS.open(&path)));
    // Two that share a descriptor, of which the first to go leaves the other its lock.
    let file = readers.1.into_file();
    let readers = (READING.over(file.try_clone()?)?, READING.over(file)?);
    drop(readers.0);
    assert!(is_in_use(OPTIONS.open(&path)));
    assert_eq!(told_to_another(&path)?.as_deref(), Some(IN_USE));
    drop(readers.1);
    let pages = OPTIONS.open(&path)?;
    assert!(is_in_use(READING.open(&path)));
    drop(pages);
    READING.open(&path)?;
    Ok(())
}

/// The file that another process of this program is to use.
const FILE: &str = "HOJZMATED_TEST_FILE";

/// Another process that runs one of the tests below, over a file.
fn other_process(test: &str, path: &Path) -> io::Result<Child> {
    let mut command = Command::new(env::current_exe()?);
    command.args(["--exact", "--ignored", "--nocapture", test]);
    command.env(FILE, path).stdout(Stdio::piped()).spawn()
}

/// What a process says in the line that begins so. What it says after that is kept as long as it runs.
fn said(child: &mut Child, begin: &str) -> Option<String> {
    let mut out = BufReader::new(child.stdout.take()?);
    let mut lines = out.by_ref().lines().map_while(Result::ok);
    let found = lines.find_map(|line| Some(line.split_once(begin)?.1.to_owned()));
    child.stdout = Some(out.into_inner());
    found
}

const IN_USE: &str = "another pager or process has the page file";

/// What another process is told that opens a file which it does not get.
fn told_to_another(path: &Path) -> io::Result<Option<String>> {
    let mut child = other_process("locks::in_another_process", path)?;
    let found = said(&mut child, "opened: ");
    child.kill()?;
    child.wait()?;
    Ok(found)
}

/// Not a test: it is run by those below.
#[test]
#[ignore = "what another process does"]
fn in_another_process() {
    let Some(path) = env::var_os(FILE) else {
        return;
    };
    match OPTIONS.open(path) {
        Ok(pages) => {
            println!("opened: {pages:?}");
            thread::sleep(Duration::from_secs(60));
        }
        Err(error) => println!("opened: {error}"),
    }
}

#[test]
fn a_pager_of_another_process_is_refused() -> Outcome {
    let folder = Folder::new();
    let path = folder.join("pages");
    let pages = OPTIONS.create(&path)?;
    let pager = Pager::new(&pages.config(4), pages.without_log())?;
    assert_eq!(told_to_another(&path)?.as_deref(), Some(IN_USE));
    drop(pager);
    // No lock outlives its process.
    let mut child = other_process("locks::in_another_process", &path)?;
    let found = said(&mut child, "opened: ");
    let refused = OPTIONS.open(&path);
    child.kill()?;
    child.wait()?;
    assert!(found.is_some_and(|it| it.starts_with("FilePages")));
    assert!(is_in_use(refused));
    OPTIONS.open(&path)?;
    Ok(())
}

/// The lock is that of `flock`, which `bpool run` and the program `flock` take.
#[test]
fn the_lock_is_that_of_the_system() -> Outcome {
    let folder = Folder::new();
    let path = folder.join("pages");
    let pages = OPTIONS.create(&path)?;
    let lock = |how: &str, then: &[&str]| {
        let mut command = Command::new("flock");
        command.args(["--nonblock", "--conflict-exit-code", "7", how]);
        command.arg(&path).args(then);
        command.stdin(Stdio::piped()).stdout(Stdio::piped()).spawn()
    };
    let mut refused = match lock("--shared", &["true"]) {
        Err(error) if error.kind() == ErrorKind::NotFound => {
            println!("left out: no program flock");
            return Ok(());
        }
        refused => refused?,
    };
    assert_eq!(refused.wait()?.code(), Some(7));
    drop(pages);
    let mut holder = lock("--shared", &["sh", "-c", "echo has it; read end"])?;
    assert!(said(&mut holder, "has ").is_some());
    let (refused, read) = (OPTIONS.open(&path), READING.open(&path).map(drop));
    // Its input ends here, and so it does.
    holder.wait()?;
    assert!(is_in_use(refused));
    read?;
    OPTIONS.open(&path)?;
    Ok(())
}

// SAFETY: as the system's C library has them.
unsafe extern "C" {
    safe fn fork() -> i32;
    safe fn _exit(status: i32) -> !;
    fn waitpid(process: i32, status: *mut i32, options: i32) -> i32;
}

/// A child after `fork` has the lock with its parent, and gives back nothing as it drops what it got.
#[test]
fn a_child_gives_no_lock_back() -> Outcome {
    let folder = Folder::new();
    let path = folder.join("pages");
    let mut pages = Some(OPTIONS.create(&path)?);
    let child = fork();
    if child == 0 {
        drop(pages.take());
        _exit(0);
    }
    let mut status = 1;
    // SAFETY: the status may be written to.
    assert_eq!(unsafe { waitpid(child, &mut status, 0) }, child);
    assert_eq!(status, 0);
    assert_eq!(told_to_another(&path)?.as_deref(), Some(IN_USE));
    drop(pages);
    OPTIONS.open(&path)?;
    Ok(())
}
