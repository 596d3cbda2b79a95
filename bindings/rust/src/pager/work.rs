//! Device work that is under way: a read, and a write-out. On every way out it ends.
use super::aside::SetAside;
use super::faults::Fault;
use super::guards::PagePin;
use super::part::{Locked, Part};
use super::pins::Came;
use crate::core::{PageGuard, Pass, ReadTicket, Refused, WriteTicket};
use crate::image::Image;
use crate::{Error, ReadFault, Result};
use std::mem;

/// A read that is under way. If it is dropped before its end it ends as failed, also where the
/// engine's code panicked or memory for the page was refused. So no frame waits for ever.
pub(super) struct Reading<'a> {
    part: &'a Part,
    ticket: Option<ReadTicket>,
    pub(super) image: Image,
    /// Its number among the reads of the part, and the fault with which it ends then, for those that waited as it
    /// began. A read ahead has none for them.
    number: u64,
    pub(super) fault: Option<Fault>,
}

impl<'a> Reading<'a> {
    pub(super) fn new(part: &'a Part, mut state: Locked<'a>, ticket: ReadTicket) -> Reading<'a> {
        Reading {
            part,
            ticket: Some(ticket),
            image: state.image(),
            number: state.faults.begin(),
            fault: None,
        }
    }

    /// Begins to read a page whose image comes to another buffer. The lock is opened.
    pub(super) fn ahead(part: &'a Part, state: Locked<'a>, ticket: ReadTicket) -> Reading<'a> {
        drop(state);
        Reading {
            part,
            ticket: Some(ticket),
            image: Image::default(),
            number: 0,
            fault: None,
        }
    }

    /// Ends the read where it succeeded, and pins the page.
    pub(super) fn end(mut self) -> Result<PagePin<'a>> {
        let part = self.part;
        let (state, pass) = self.end_with(None)?;
        let page = pass.page();
        let has_sleepers = state.has_sleepers(page);
        let pin = part.pinned(state, pass, Came::Read);
        part.wake_for_work(page, has_sleepers);
        pin
    }

    /// Ends a read ahead, where it succeeded, with its image. The page is not pinned, but its pass
    /// stays out until it was used, or has to make way.
    pub(super) fn end_ahead(mut self, image: &[u8]) -> Result<()> {
        let part = self.part;
        let (mut state, pass) = self.end_with(Some(image))?;
        let page = pass.page();
        let kept = part.keep_ahead(&mut state, &pass);
        part.wake(state, page);
        kept
    }

    /// Ends the read, with the image or with another one, and returns the part, locked, and the pass of the page.
    fn end_with(&mut self, other: Option<&[u8]>) -> Result<(Locked<'a>, Pass)> {
        let ticket = self.ticket.take().ok_or(Error::UnknownTicket)?;
        let part = self.part;
        let mut state = part.lock();
        let ended = state.pool.end_read(ticket, other.unwrap_or(&self.image));
        let pass = match ended.map(PageGuard::into_pass) {
            Ok(pass) => pass,
            Err(Refused { error, token }) => {
                drop(state);
                self.ticket = Some(token);
                return Err(error);
            }
        };
        let page = pass.page();
        state.free.give(&part.seats, page);
        self.image = state.keep(mem::take(&mut self.image)).unwrap_or_default();
        if !state.line.is_empty() {
            part.wake_in_line(&state, page);
        }
        Ok((state, pass))
    }
}

impl Drop for Reading<'_> {
    fn drop(&mut self) {
        if let Some(ticket) = self.ticket.take() {
            let page = ticket.page();
            let to_pool = match self.fault {
                Some(Fault::WrongPage) => ReadFault::WrongPage,
                Some(Fault::Spoilt) => ReadFault::Spoilt,
                _ => ReadFault::Device(std::io::ErrorKind::Other.into()),
            };
            let mut state = self.part.lock();
            // A ticket of this pool that is out is always taken.
            let _ = state.pool.fail_read(ticket, &to_pool);
            let now = state.now;
            state.away.come_back(&self.part.seats, page, now);
            self.image = state.keep(mem::take(&mut self.image)).unwrap_or_default();
            let fault = self.fault.take();
            let _older = fault.and_then(|fault| state.faults.note(page, self.number, fault));
            self.part.wake(state, page);
        }
    }
}

/// A write-out that is under way. If it is dropped before its end it ends as failed.
pub(super) struct Writing<'a> {
    part: &'a Part,
    ticket: Option<WriteTicket>,
    /// Empty where the image is elsewhere.
    pub(super) image: Image,
    /// Whether the page is a victim.
    is_victim: bool,
}

impl<'a> Writing<'a> {
    /// Begins to write a page out whose image was just taken. The lock is opened.
    pub(super) fn new(
        part: &'a Part,
        mut state: Locked<'a>,
        ticket: WriteTicket,
        is_victim: bool,
    ) -> Writing<'a> {
        Writing {
            part,
            ticket: Some(ticket),
            image: state.image(),
            is_victim,
        }
    }

    /// Begins to write a page out whose image was taken to another buffer.
    pub(super) fn of_run(part: &'a Part, ticket: WriteTicket) -> Writing<'a> {
        Writing {
            part,
            ticket: Some(ticket),
            image: Image::default(),
            is_victim: false,
        }
    }

    /// The page, by its number in the part. None where it has ended.
    pub(super) fn page(&self) -> Option<u64> {
        self.ticket.as_ref().map(WriteTicket::page)
    }

    /// Ends the write-out where it succeeded.
    pub(super) fn end(&mut self) -> Result<()> {
        let (state, page) = self.arrive()?;
        self.part.wake(state, page);
        Ok(())
    }

    /// Ends a victim's write-out where it succeeded. The lock is kept: so no other call takes the frame.
    pub(super) fn end_of_victim(mut self) -> Result<Locked<'a>> {
        let (state, page) = self.arrive()?;
        self.part.wake_under(&state, page);
        Ok(state)
    }

    /// Notes that the image is on the device, and returns the page, with the part locked.
    #[inline]
    fn arrive(&mut self) -> Result<(Locked<'a>, u64)> {
        let ticket = self.ticket.take().ok_or(Error::UnknownTicket)?;
        let page = ticket.page();
        let mut state = self.part.lock();
        state.pool.end_write(ticket)?;
        if let Some(seat) = self.part.seats.of(page) {
            state.firsts.arrive(seat);
        }
        self.image = state.keep(mem::take(&mut self.image)).unwrap_or_default();
        Ok((state, page))
    }

    /// Ends a victim's write-out as failed, and sets the page aside.
    pub(super) fn set_aside(mut self) -> Result<SetAside<'a>> {
        let (state, page) = self.fail().ok_or(Error::UnknownTicket)?;
        self.part.set_aside(state, page)
    }

    /// Ends the write-out as failed, if it is under way, and returns the page, with the part locked.
    fn fail(&mut self) -> Option<(Locked<'a>, u64)> {
        let ticket = self.ticket.take()?;
        let page = ticket.page();
        let mut state = self.part.lock();
        // A ticket of this pool that is out is always taken.
        let _ = state.pool.fail_write(ticket);
        if let Some(seat) = self.part.seats.of(page) {
            state.firsts.come_back(seat);
        }
        self.image = state.keep(mem::take(&mut self.image)).unwrap_or_default();
        Some((state, page))
    }
}

impl Drop for Writing<'_> {
    fn drop(&mut self) {
        if self.ticket.is_none() {
            return;
        }
        let Some((mut state, page)) = self.fail() else {
            return;
        };
        if self.is_victim {
            self.part.refer_to(&mut state, page);
        }
        self.part.wake(state, page);
    }
}
