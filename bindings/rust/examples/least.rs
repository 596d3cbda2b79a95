//! The least engine: a counter in each page of a file, and one more in each at every run. It keeps
//! no log, so each write has LSN 0, which needs none.
use hojzmated::{Device, FileOptions, Pager};
use std::error::Error;

const PAGES: u64 = 100;
const SIZE: usize = 4096;

fn main() -> Result<(), Box<dyn Error>> {
    let options = FileOptions::new(SIZE).grown_to(PAGES);
    let pages = options.create("counters.pages")?; // locked until it is dropped
    let pager = Pager::new(&pages.config(8), pages.without_log())?; // 8 pages in memory
    let mut count = 0;
    for number in 0..PAGES {
        let mut page = pager.write(number)?; // no other thread has it until it is dropped
        let word = page.bytes()[..8].try_into()?; // looks at the page in place
        count = u64::from_le_bytes(word) + 1;
        page.put(0, &count.to_le_bytes(), 0)?;
    }
    pager.checkpoint()?; // writes out what is unsaved, and syncs the device
    println!("the last page counts {count}");
    Ok(())
}
