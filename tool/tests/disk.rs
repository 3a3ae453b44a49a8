//! A disk without room: the old shelf stays.

mod common;

use common::{scratch, shell, tool};
use std::{
    path::{Path, PathBuf},
    process::Command,
};

/// A small disk, unmounted in the end.
struct Disk(PathBuf);

impl Disk {
    fn mount(folder: &Path, size: &str) -> Option<Disk> {
        let mounted = Command::new("mount").args(["-t", "tmpfs", "-o", size, "tmpfs"]).arg(folder).output();
        mounted.is_ok_and(|output| output.status.success()).then(|| Disk(folder.to_path_buf()))
    }
}

impl Drop for Disk {
    fn drop(&mut self) {
        let _ = Command::new("umount").arg(&self.0).status();
    }
}

#[test]
fn a_full_disk() {
    let folder = scratch("disk-full");
    let Some(_disk) = Disk::mount(&folder, "size=128k") else {
        println!("not tried: only root may mount; a_limit_on_files tries the like");
        return;
    };
    let table: String = (1..=6000).map(|sheet| format!("board\t{sheet}\t{sheet}\n")).collect();
    let old = tool(&folder, &["--json", "build", "lab"], &table).shelf();
    // Room is left for less than a shelf, a page at a time.
    for pages in 0..4 {
        shell(&folder, "cat /dev/zero > filler");
        shell(&folder, &format!("truncate -s -{} filler", pages * 4096));
        let run = tool(&folder, &["set", "lab", "fuse", "1", "1", "--title", "Fuse"], "");
        assert_eq!(run.code, Some(2), "{pages}: {}", run.err);
        assert!(run.err.contains("No space left on device"), "{}", run.err);
        assert_eq!(tool(&folder, &["--json", "check", "lab"], "").shelf(), old);
    }
    shell(&folder, "rm filler");
    let new = tool(&folder, &["--json", "set", "lab", "fuse", "1", "1"], "").shelf();
    assert_eq!(tool(&folder, &["--json", "check", "lab"], "").shelf(), new);
}

/// The system ends a process that writes a longer file than it may.
#[test]
fn a_limit_on_files() {
    let folder = scratch("disk-limit");
    let table: String = (1..=2000).map(|sheet| format!("board\t{sheet}\t{sheet}\n")).collect();
    let old = tool(&folder, &["--json", "build", "lab"], &table).shelf();
    for blocks in 0..10 {
        let run = shell(&folder, &format!("ulimit -f {blocks}; tagmurlen set lab fuse 1 1"));
        assert_ne!(run.code, Some(0), "{blocks}");
        assert_eq!(tool(&folder, &["--json", "check", "lab"], "").shelf(), old, "{blocks}");
    }
    assert_eq!(tool(&folder, &["set", "lab", "fuse", "1", "1"], "").code, Some(0));
}
