//! Where memory is wanting: the call says so, and comes to what it had to when it is made again.
//! The library asks this program for its memory, which refuses one request, and counts blocks.
#![cfg(all(target_os = "linux", target_env = "gnu"))]

mod pager;
mod requests;

use hojzmated::Error;
use hojzmated::core::{Config, Fixed, Pool, Refused};
use requests::{BLOCKS, refusing};

#[test]
fn ticket_comes_back_without_memory() {
    let pool = Pool::new(&Config::new(4, 16, 1)).unwrap();
    let Ok(Fixed::Load { ticket, .. }) = pool.fix(0, 2, &mut [0; 16]) else {
        panic!("page 2 is away");
    };
    let (ended, has_come) = refusing(1, || pool.end_read(ticket, &[9; 16]));
    assert!(has_come);
    let Err(Refused { error, token }) = ended else {
        panic!("the image takes memory");
    };
    assert_eq!((error, token.page()), (Error::OutOfMemory, 2));
    let page = pool.end_read(token, &[9; 16]).unwrap();
    assert_eq!(page.bytes().unwrap()[15], 9);
}

// Nothing is lent then: the page is written to.
#[test]
fn look_without_memory() {
    let pool = Pool::new(&Config::new(4, 16, 1)).unwrap();
    let Ok(Fixed::Load { ticket, .. }) = pool.fix(0, 2, &mut [0; 16]) else {
        panic!("page 2 is away");
    };
    let page = pool.end_read(ticket, &[9; 16]).unwrap();
    let (told, has_come) = refusing(1, || page.bytes().map(drop));
    assert!(has_come);
    assert_eq!(told, Err(Error::OutOfMemory));
    page.put(0, &[7], 0).unwrap();
    // The first look has the memory of those that come after it.
    drop(page.bytes().unwrap());
    let (byte, has_come) = refusing(1, || page.bytes().unwrap()[0]);
    assert_eq!((byte, has_come), (7, false));
}

#[test]
fn pool_without_memory() {
    let config = Config::new(4, 16, 1);
    for number in 1.. {
        let (pool, has_come) = refusing(number, || Pool::new(&config).map(drop));
        if !has_come {
            assert_eq!(pool, Ok(()));
            assert!(number > 2);
            break;
        }
        assert_eq!(pool, Err(Error::OutOfMemory));
    }
}

// A pass is out, and a ticket.
#[test]
fn dropped_pool_gives_its_memory_back() {
    let before = BLOCKS.get();
    let pool = Pool::new(&Config::new(4, 16, 2)).unwrap();
    let Ok(Fixed::Load { ticket, .. }) = pool.fix(0, 2, &mut [0; 16]) else {
        panic!("page 2 is away");
    };
    let _pass = pool.end_read(ticket, &[9; 16]).unwrap().into_pass();
    let Ok(Fixed::Load {
        ticket: _ticket, ..
    }) = pool.fix(0, 3, &mut [0; 16])
    else {
        panic!("page 3 is away");
    };
    assert!(BLOCKS.get() > before + 2);
    drop(pool);
    assert_eq!(BLOCKS.get(), before);
}
