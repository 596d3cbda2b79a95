//! The calls of a pool as values, with what they give, so that a test is a table.
use hojzmated::core::{
    Config, Fixed, Flushed, PageGuard, Pass, Pool, ReadTicket, Refused, Saved, WriteTicket,
};
use hojzmated::{Error, ReadFault};
use std::io;

/// A call. A pass is named by its serial number. The ticket of a read or of a write-out is the one
/// that is out.
#[derive(Clone, Copy, Debug)]
pub enum Do {
    Fix(u8, u64),
    /// Ends the read with a page that starts with this byte and has zeros else.
    ReadEnd(u8),
    ReadFails,
    /// Ends the read with the fault of a device that found another page.
    ReadFindsAnother,
    /// Puts a byte at the start of the page of a pass, with an LSN.
    Write(usize, u8, u64),
    Read(usize),
    Unfix(usize),
    Flush(u8, u64),
    WriteEnd,
    WriteFails,
    Tick(u64),
    Mark(u64),
    Purge,
}

/// What a call gives.
#[derive(Clone, Copy, Debug, PartialEq, Eq)]
pub enum Gives {
    /// A pass: its client, page and serial number.
    Pass(u8, u64, u64),
    /// A ticket to read: its page and serial number, and the page that made way.
    Load(u64, u64, Option<u64>),
    /// A ticket to write out: its page and serial number, the first byte of its image, and its LSN.
    Out(u64, u64, Option<u8>, u64),
    /// The first byte of a page that has zeros else.
    Page(Option<u8>),
    Ended(Saved),
    Clean,
    Absent,
    Done,
    /// How many pages a purge forgot.
    Number(u64),
    Refused(Error),
    /// A pass that comes back: its client, page and serial number.
    PassBack(u8, u64, u64),
    /// A ticket to read that comes back: its page and serial number.
    TicketBack(u64, u64),
    /// There is no such pass or ticket.
    NotCalled,
}

/// A pool over 16 pages of 16 bytes, with two clients and no correlated period.
pub fn pool(k: u8, retained: u64, frames: usize, room: usize) -> Pool {
    let config = Config::new(16, 16, frames)
        .with_k(k)
        .with_correlated(0)
        .with_retained(retained)
        .with_room(room)
        .with_clients(2);
    Pool::new(&config).unwrap()
}

/// A pool that is called by rows.
pub struct Run {
    pool: Pool,
    /// The passes that were given, by their serial numbers, and that are still out.
    pub passes: Vec<Option<Pass>>,
    pub read: Option<ReadTicket>,
    write: Option<WriteTicket>,
    image: [u8; 16],
}

/// The first byte of an image, where the others are zero.
fn first_byte(image: &[u8; 16]) -> Option<u8> {
    let [first, rest @ ..] = image;
    rest.iter().all(|byte| *byte == 0).then_some(*first)
}

/// The bytes of a page that starts with this byte and has zeros else.
fn page_of(first: u8) -> [u8; 16] {
    let mut image = [0; 16];
    image[0] = first;
    image
}

fn shown(pass: &Pass) -> (u8, u64, u64) {
    (pass.client(), pass.page(), pass.serial())
}

/// Keeps the pass of a guard.
fn kept(passes: &mut Vec<Option<Pass>>, guard: PageGuard<'_>) -> Gives {
    let pass = guard.into_pass();
    let (client, page, serial) = shown(&pass);
    assert_eq!(
        passes.len() as u64,
        serial,
        "serial numbers follow one another"
    );
    passes.push(Some(pass));
    Gives::Pass(client, page, serial)
}

/// Keeps a ticket to write out.
fn kept_write(write: &mut Option<WriteTicket>, ticket: WriteTicket, image: &[u8; 16]) -> Gives {
    let (page, serial, lsn) = (ticket.page(), ticket.serial(), ticket.lsn());
    *write = Some(ticket);
    Gives::Out(page, serial, first_byte(image), lsn)
}

impl Run {
    pub fn of(pool: Pool) -> Run {
        Run {
            pool,
            passes: Vec::new(),
            read: None,
            write: None,
            image: [0; 16],
        }
    }

    /// Makes the calls in turn. Each gives what stands beside it.
    pub fn follow(&mut self, rows: &[(Do, Gives)]) {
        for (at, (what, gives)) in rows.iter().enumerate() {
            assert_eq!(self.call(*what), *gives, "row {at}: {what:?}");
        }
    }

    fn fix(&mut self, client: u8, page: u64) -> Gives {
        match self.pool.fix(client, page, &mut self.image) {
            Ok(Fixed::Hit(guard)) => kept(&mut self.passes, guard),
            Ok(Fixed::Load { ticket, evicted }) => {
                let gives = Gives::Load(ticket.page(), ticket.serial(), evicted);
                self.read = Some(ticket);
                gives
            }
            Ok(Fixed::WriteFirst(ticket)) => kept_write(&mut self.write, ticket, &self.image),
            Err(error) => Gives::Refused(error),
        }
    }

    fn flush(&mut self, client: u8, page: u64) -> Gives {
        match self.pool.flush(client, page, &mut self.image) {
            Ok(Flushed::WriteFirst(ticket)) => kept_write(&mut self.write, ticket, &self.image),
            Ok(Flushed::Clean) => Gives::Clean,
            Ok(Flushed::Absent) => Gives::Absent,
            Err(error) => Gives::Refused(error),
        }
    }

    fn end_read(&mut self, first: u8) -> Gives {
        let Some(ticket) = self.read.take() else {
            return Gives::NotCalled;
        };
        match self.pool.end_read(ticket, &page_of(first)) {
            Ok(guard) => kept(&mut self.passes, guard),
            Err(Refused { error, token }) => {
                assert_eq!(error, Error::UnknownTicket);
                let gives = Gives::TicketBack(token.page(), token.serial());
                self.read = Some(token);
                gives
            }
        }
    }

    /// A read that fails is told by what it leaves. The refusal is what the fault says.
    fn fail_read(&mut self, fault: &ReadFault) -> Gives {
        let Some(ticket) = self.read.take() else {
            return Gives::NotCalled;
        };
        self.pool.fail_read(ticket, fault).unwrap();
        Gives::Done
    }

    fn end_write(&mut self, is_good: bool) -> Gives {
        match (self.write.take(), is_good) {
            (None, _) => Gives::NotCalled,
            (Some(ticket), true) => Gives::Ended(self.pool.end_write(ticket).unwrap()),
            (Some(ticket), false) => {
                self.pool.fail_write(ticket).unwrap();
                Gives::Done
            }
        }
    }

    /// The pass with this number, while it is out.
    fn pass(&self, serial: usize) -> Option<&Pass> {
        self.passes.get(serial)?.as_ref()
    }

    /// The bytes that are lent are those that are read.
    fn read(&self, serial: usize) -> Gives {
        let Some(pass) = self.pass(serial) else {
            return Gives::NotCalled;
        };
        let mut image = [0xa5; 16];
        match self.pool.copy_to(pass, 0, &mut image) {
            Ok(()) => {
                assert_eq!(*self.pool.bytes(pass).unwrap(), image);
                Gives::Page(first_byte(&image))
            }
            Err(error) => {
                assert_eq!(self.pool.bytes(pass).err(), Some(error));
                Gives::Refused(error)
            }
        }
    }

    fn write(&self, serial: usize, byte: u8, lsn: u64) -> Gives {
        self.pass(serial).map_or(Gives::NotCalled, |pass| {
            done(self.pool.put(pass, 0, &[byte], lsn))
        })
    }

    fn unfix(&mut self, serial: usize) -> Gives {
        let Some(Some(pass)) = self.passes.get_mut(serial).map(Option::take) else {
            return Gives::NotCalled;
        };
        match self.pool.unfix(pass) {
            Ok(()) => Gives::Done,
            Err(Refused { error, token }) => {
                assert_eq!(error, Error::UnknownPass);
                let (client, page, serial) = shown(&token);
                Gives::PassBack(client, page, serial)
            }
        }
    }

    fn purge(&mut self) -> Gives {
        match self.pool.purge(0) {
            Ok(forgotten) => Gives::Number(forgotten),
            Err(error) => Gives::Refused(error),
        }
    }

    fn call(&mut self, what: Do) -> Gives {
        match what {
            Do::Fix(client, page) => self.fix(client, page),
            Do::ReadEnd(first) => self.end_read(first),
            Do::ReadFails => {
                self.fail_read(&ReadFault::Device(io::ErrorKind::UnexpectedEof.into()))
            }
            Do::ReadFindsAnother => self.fail_read(&ReadFault::WrongPage),
            Do::Write(pass, byte, lsn) => self.write(pass, byte, lsn),
            Do::Read(pass) => self.read(pass),
            Do::Unfix(pass) => self.unfix(pass),
            Do::Flush(client, page) => self.flush(client, page),
            Do::WriteEnd => self.end_write(true),
            Do::WriteFails => self.end_write(false),
            Do::Tick(n) => done(self.pool.tick(0, n)),
            Do::Mark(lsn) => done(self.pool.mark(0, lsn)),
            Do::Purge => self.purge(),
        }
    }
}

fn done(told: hojzmated::Result<()>) -> Gives {
    match told {
        Ok(()) => Gives::Done,
        Err(error) => Gives::Refused(error),
    }
}
