//! Page files past the system's memory, where the file system has that.
use crate::{Folder, Outcome};
use hojzmated::{Device, FileOptions, Layout, OpenError, Pager};
use std::path::Path;
use std::sync::Arc;

const PAGES: u64 = 64;

#[repr(align(4096))]
struct Aligned([u8; 4096]);

/// A folder whose file system has `O_DIRECT`, or none.
fn folder() -> Option<Folder> {
    let folders = [env!("CARGO_TARGET_TMPDIR"), "/var/tmp", "/tmp"];
    folders.iter().find_map(|above| {
        let folder = Folder::within(Path::new(above));
        let options = FileOptions::new(4096).direct(true).grown_to(1);
        match options.create(folder.join("tried")) {
            Ok(_) => Some(folder),
            Err(OpenError::NotDirect { source }) => {
                println!("{above}: {source}");
                None
            }
            Err(other) => panic!("{other}"),
        }
    })
}

#[test]
fn direct_files() -> Outcome {
    let Some(folder) = folder() else {
        println!("left out: no file system here has O_DIRECT");
        return Ok(());
    };
    let empty = FileOptions::new(4096).direct(true).pages(0);
    let pages = empty.create(folder.join("empty"))?;
    pages.grow_to(1)?;
    pages.read_page(0, &mut Aligned([1; 4096]).0)?;
    for (number, (layout, size)) in [
        (Layout::Plain, 4096),
        (Layout::Plain, 8192),
        (Layout::Numbered, 4080),
        (Layout::Checked, 4064),
        (Layout::Checked, 8160),
    ]
    .into_iter()
    .enumerate()
    {
        let path = folder.join(number.to_string());
        let options = FileOptions::new(size).layout(layout).grown_to(PAGES);
        let pages = options.direct(true).create(&path)?;
        let pager = Arc::new(Pager::new(&pages.config(16), pages.without_log())?);
        for page in 0..PAGES {
            let mut page = pager.write(page)?;
            let number = page.page() as u8;
            page.edit(.., 0, |bytes| bytes.fill(number))?;
        }
        pager.checkpoint()?;
        let readers = pager.start_readers(2)?;
        for page in 0..PAGES {
            pager.prefetch(page + 1..page + 9);
            assert_eq!(*pager.read(page)?, *vec![page as u8; size]);
        }
        drop((readers, pager));
        // The same file as others read it.
        let pages = options.open(&path)?;
        let mut image = vec![0; size];
        for page in 0..PAGES {
            pages.read_page(page, &mut image)?;
            assert_eq!(image, vec![page as u8; size]);
        }
    }
    Ok(())
}

/// What is not of whole sectors is refused at once, and no file is made.
#[test]
fn slots_of_no_whole_sectors() -> Outcome {
    let folder = Folder::new();
    for (layout, size) in [
        (Layout::Plain, 4080),
        (Layout::Numbered, 4096),
        (Layout::Checked, 4096),
        (Layout::Plain, 16),
    ] {
        let options = FileOptions::new(size).layout(layout).grown_to(PAGES);
        let refused = options.direct(true).create(folder.join("pages"));
        let error = refused.unwrap_err();
        assert!(matches!(error, OpenError::NotDirect { .. }), "{error}");
        assert!(!folder.join("pages").exists());
    }
    Ok(())
}
