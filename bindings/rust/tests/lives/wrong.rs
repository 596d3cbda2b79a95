//! What the engine may do wrong, against the rules for every engine: one thing at a time.

macro_rules! wrongs {
    ($($(#[$says:meta])* $name:ident)*) => {
        #[derive(Clone, Copy, Debug, PartialEq, Eq)]
        pub enum Wrong { $($(#[$says])* $name,)* }

        impl Wrong {
            pub const ALL: &[Wrong] = &[$(Wrong::$name),*];
        }
    };
}

wrongs! {
    /// Pages are discarded, and used again, before the record that frees them is durable.
    DiscardedEarly
    /// The first record of a page that is used again has not all of its bytes.
    FirstRecordOfAPart
    /// A change with a record is put without one: redo begins too late for it.
    PutUnlogged
    /// A page without records has no LSN: redo has the records of its earlier life over it.
    UnloggedUnderZero
    /// The record that names loaded pages comes before they are on the device.
    NamedBeforeSync
    /// The first record of a loaded page is one of a few bytes: it may be torn.
    LoadKeepsImages
    /// Temporary pages are flushed, and taken for pages of a table.
    TemporaryNamed
    /// A temporary page is begun with what the device has there.
    TemporaryRead
    /// An index without records is not made anew by a start.
    IndexKept
    /// A checkpoint writes out too few pages: those with the last record before the redo point stay.
    FlushedTooFew
    /// A checkpoint notes the log's end while others are between a record and its puts.
    NotedBesideWriters
    /// The changes of a record come by two writes: a flush between takes half of them.
    PutInTwo
    /// No record has all bytes of a page after a checkpoint: it may be torn.
    ImagesLeftOut
    /// The redo point is written down before the pages are on the device.
    PagesNotSynced
    /// A start writes its redo point down before the pages are on the device.
    RedoneNotSynced
}
