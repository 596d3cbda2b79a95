//! What is no page file is refused at once, each time with its reason, and stays as it was.
use crate::{Folder, Outcome};
use hojzmated::{FileOptions, Layout, OpenError};
use std::error::Error;
use std::fs::{File, Permissions, create_dir, read, set_permissions, write};
use std::io::{self, ErrorKind};
use std::os::unix::fs::{FileExt, PermissionsExt};
use std::path::Path;
use std::process::Command;

const OPTIONS: FileOptions = FileOptions::new(512);

fn writing(path: &Path) -> io::Result<File> {
    File::options().read(true).write(true).open(path)
}

/// The kind that a fault has for the system, and its text.
fn told(error: OpenError) -> (ErrorKind, String) {
    let text = error.to_string();
    (io::Error::from(error).kind(), text)
}

#[test]
fn no_files() -> Outcome {
    let folder = Folder::new();
    let (directory, pipe) = (folder.join("directory"), folder.join("pipe"));
    create_dir(&directory)?;
    for opened in [
        OPTIONS.open(&directory),
        OPTIONS.create(&directory),
        OPTIONS.read_only(true).open(&directory),
        OPTIONS.over(File::open(&directory)?),
    ] {
        let wanted = (
            ErrorKind::IsADirectory,
            "the page file is a directory".into(),
        );
        assert_eq!(told(opened.unwrap_err()), wanted);
    }
    // The open of a pipe for reading alone would wait for a writer.
    assert!(Command::new("mkfifo").arg(&pipe).status()?.success());
    for path in [pipe.as_path(), "/dev/null".as_ref()] {
        for options in [OPTIONS, OPTIONS.read_only(true)] {
            let error = options.open(path).unwrap_err();
            assert!(matches!(error, OpenError::NotAFile), "{error}");
        }
    }
    let error = OPTIONS.over(writing("/dev/null".as_ref())?).unwrap_err();
    assert!(matches!(error, OpenError::NotAFile), "{error}");
    let error = OPTIONS.open(folder.join("none")).unwrap_err();
    assert_eq!(error.to_string(), "the page file could not be opened");
    assert!(error.source().is_some());
    assert_eq!(io::Error::from(error).kind(), ErrorKind::NotFound);
    assert!(!folder.join("none").exists());
    Ok(())
}

#[test]
fn descriptors_for_one_way_alone() -> Outcome {
    let folder = Folder::new();
    let path = folder.join("pages");
    OPTIONS.grown_to(4).create(&path)?;
    let error = OPTIONS.over(File::open(&path)?).unwrap_err();
    let wanted = "the page file is open for reading alone";
    assert_eq!(told(error), (ErrorKind::PermissionDenied, wanted.into()));
    OPTIONS.read_only(true).over(File::open(&path)?)?;
    OPTIONS.read_only(true).over(writing(&path)?)?;
    let error = OPTIONS
        .over(File::options().write(true).open(&path)?)
        .unwrap_err();
    assert_eq!(error.to_string(), "the page file could not be opened");
    // What may only be read, whoever runs this.
    set_permissions(&path, Permissions::from_mode(0o400))?;
    if let Err(error) = OPTIONS.open(&path) {
        assert_eq!(io::Error::from(error).kind(), ErrorKind::PermissionDenied);
    }
    // It is opened so that nobody writes by it.
    let file = OPTIONS.read_only(true).open(&path)?.into_file();
    assert!(file.write_at(b"x", 0).is_err());
    Ok(())
}

#[test]
fn other_lengths() -> Outcome {
    let folder = Folder::new();
    let path = folder.join("pages");
    for (layout, slot) in [
        (Layout::Plain, 512),
        (Layout::Numbered, 528),
        (Layout::Checked, 544),
    ] {
        let options = OPTIONS.layout(layout);
        for (bytes, asked, has) in [(0, options, 0), (3 * slot, options.pages(4), 3)] {
            write(&path, vec![7; bytes])?;
            let error = asked.open(&path).unwrap_err();
            let wanted = if has == 0 { 1 } else { 4 };
            let text = format!("the page file has {has} pages, and not {wanted}");
            assert_eq!(told(error), (ErrorKind::InvalidData, text));
            assert_eq!(read(&path)?, vec![7; bytes]);
        }
        for bytes in [1, slot - 1, 3 * slot + 1, 4 * slot - 1] {
            write(&path, vec![7; bytes])?;
            for options in [options, options.grown_to(10), options.read_only(true)] {
                let text = format!(
                    "the page file has {bytes} bytes, and that is no whole number of pages of {slot} bytes"
                );
                let error = options.create(&path).unwrap_err();
                assert_eq!(told(error), (ErrorKind::InvalidData, text));
            }
            assert_eq!(read(&path)?, vec![7; bytes]);
        }
        write(&path, vec![0; 3 * slot])?;
        let found = options.pages(2).open(&path)?;
        assert_eq!(
            (found.pages(), found.page_size(), found.layout()),
            (3, 512, layout)
        );
        drop(found);
        // For reading alone no page is added.
        let error = options
            .read_only(true)
            .grown_to(4)
            .create(&path)
            .unwrap_err();
        assert!(
            matches!(
                error,
                OpenError::TooShort {
                    pages: 3,
                    wanted: 4
                }
            ),
            "{error}"
        );
    }
    Ok(())
}

#[test]
fn sizes_out_of_their_limits() -> Outcome {
    let folder = Folder::new();
    let path = folder.join("pages");
    for size in [0, 8, 24, 100, 65_552, usize::MAX] {
        let error = FileOptions::new(size).create(&path).unwrap_err();
        assert!(matches!(error, OpenError::BadGeometry), "{size}: {error}");
        assert!(!path.exists());
    }
    for size in [16, 48, 65_536] {
        for layout in [Layout::Plain, Layout::Numbered, Layout::Checked] {
            let options = FileOptions::new(size).layout(layout);
            let pages = options.grown_to(3).create(&path)?;
            assert_eq!((pages.pages(), pages.page_size()), (3, size));
            let length = 3 * (size + layout.head());
            assert_eq!(path.metadata()?.len(), length as u64);
            std::fs::remove_file(&path)?;
        }
    }
    for pages in [u64::MAX, 1 << 54, 1 << 62] {
        let error = OPTIONS.grown_to(pages).create(&path).unwrap_err();
        assert!(matches!(error, OpenError::BadGeometry), "{error}");
        assert_eq!(path.metadata()?.len(), 0);
    }
    Ok(())
}
