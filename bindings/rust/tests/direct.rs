//! Files that go past the system's memory: the buffers of a pager suit them as they are.
#![cfg(all(
    target_os = "linux",
    any(target_arch = "x86_64", target_arch = "aarch64")
))]
use hojzmated::{LogFault, PageIo, Pager, PagerConfig, ReadFault};
use std::fs::{File, remove_file};
use std::io;
use std::os::unix::fs::{FileExt, OpenOptionsExt};
use std::path::{Path, PathBuf};
use std::sync::Arc;

/// `O_DIRECT` of the system's headers.
const DIRECT: i32 = if cfg!(target_arch = "x86_64") {
    0o40_000
} else {
    0o200_000
};
const SIZE: usize = 8192;
const PAGES: u64 = 64;

/// A file whose reads and writes go to the disk, and a log that is always durable. Some systems refuse a
/// buffer that does not begin at a multiple of a sector, and others copy it: so that is looked at here.
struct Direct(File);

fn check(images: &[u8]) {
    assert_eq!(images.as_ptr().addr() % 4096, 0);
    assert!(!images.is_empty() && images.len() % SIZE == 0);
}

impl PageIo for Direct {
    fn read_page(&self, page: u64, image: &mut [u8]) -> Result<(), ReadFault> {
        check(image);
        Ok(self.0.read_exact_at(image, page * SIZE as u64)?)
    }

    fn write_page(&self, page: u64, image: &mut [u8], lsn: u64) -> io::Result<()> {
        self.write_pages(page, image, &[lsn])
    }

    fn most_pages(&self) -> usize {
        8
    }

    fn read_pages(&self, first: u64, _count: usize, images: &mut [u8]) -> Result<(), ReadFault> {
        self.read_page(first, images)
    }

    fn write_pages(&self, first: u64, images: &mut [u8], _lsns: &[u64]) -> io::Result<()> {
        check(images);
        self.0.write_all_at(images, first * SIZE as u64)
    }

    fn make_log_durable(&self, _lsn: u64) -> Result<(), LogFault> {
        Ok(())
    }

    fn sync(&self) -> io::Result<()> {
        self.0.sync_data()
    }
}

/// Opens a new file so, in a folder whose file system has it. None where there is none.
fn direct_file(name: &str) -> Option<(Direct, PathBuf)> {
    let folders = [env!("CARGO_TARGET_TMPDIR"), "/var/tmp", "/tmp"];
    folders.iter().find_map(|folder| {
        let path = Path::new(folder).join(format!("hojzmated-{}-{name}", std::process::id()));
        let mut options = File::options();
        options.read(true).write(true).create_new(true);
        let file = options.custom_flags(DIRECT).open(&path);
        if file.is_err() {
            // The system may have made it before it refused.
            let _ = remove_file(&path);
        }
        let file = file.ok()?;
        file.set_len(PAGES * SIZE as u64).ok()?;
        Some((Direct(file), path))
    })
}

fn has_all(file: &Direct, path: &Path) -> bool {
    drop(remove_file(path));
    let mut image = Aligned([0; SIZE]);
    (0..PAGES).all(|page| {
        file.read_page(page, &mut image.0).unwrap();
        image.0.iter().all(|byte| *byte == page as u8)
    })
}

#[repr(align(4096))]
struct Aligned([u8; SIZE]);

#[test]
fn pager_over_a_direct_file() {
    let Some((file, path)) = direct_file("pager") else {
        println!("left out: no file system here has O_DIRECT");
        return;
    };
    let pager = Pager::new(&PagerConfig::new(PAGES, SIZE, 16), file).unwrap();
    let pager = Arc::new(pager);
    for page in 0..PAGES {
        let mut page = pager.write(page).unwrap();
        let number = page.page() as u8;
        page.edit(.., 0, |bytes| bytes.fill(number)).unwrap();
    }
    pager.checkpoint().unwrap();
    let readers = pager.start_readers(2).unwrap();
    for page in 0..PAGES {
        pager.prefetch(page + 1..page + 9);
        assert_eq!(pager.read(page).unwrap()[SIZE - 1], page as u8);
    }
    drop(readers);
    let pager = Arc::into_inner(pager).unwrap();
    assert!(has_all(&pager.into_io(), &path));
}
