//! The calls of the library: a stream that is fed its bytes as they come.

use crate::error::{ended, Error};
use crate::part::Part;
use crate::raw;
use crate::types::Types;
use std::marker::PhantomData;
use std::mem::MaybeUninit;
use std::ptr::NonNull;
use std::slice;

/// What a stream may have. What goes beyond is refused.
#[derive(Clone, Copy, Debug, PartialEq, Eq)]
pub struct Limits {
    /// Bytes of an item. A server that reads what others send sets it: an item may cost 100 times its bytes.
    pub item: u64,
    /// How deep a value may be: 1 to 1000, and with [`Options::exact`] up to 65536.
    pub depth: u64,
    /// How many types may be defined.
    pub types: u64,
    /// Bytes of the stream, at most 2^63 - 1.
    pub stream: u64,
}

impl Default for Limits {
    fn default() -> Limits {
        Limits { item: 64 << 20, depth: 1000, types: 10_000, stream: 64 << 30 }
    }
}

/// How a stream is read.
#[derive(Clone, Copy, Debug, Default, PartialEq, Eq)]
pub struct Options {
    pub limits: Limits,
    /// Read the format that Go documents alone, in which interfaces hold nothing.
    pub exact: bool,
}

/// A stream that is fed its bytes as they come. It stays on its thread, as the library asks.
pub struct Stream {
    reader: NonNull<raw::Reader>,
    types: Types,
    /// The value under way, which stands until the next one is asked for.
    value: Option<raw::Item>,
    _stays: PhantomData<*mut ()>,
}

impl Stream {
    /// A stream of which no byte was fed.
    pub fn new(options: Options) -> Result<Stream, Error> {
        let Limits { item, depth, types, stream } = options.limits;
        let limits = raw::Limits { item, depth, types, stream };
        let open = if options.exact { raw::gob_open_exact } else { raw::gob_open };
        let mut fault = raw::Fault::default();
        // SAFETY: both point to what the header says.
        let reader = unsafe {
            assert_eq!(raw::gob_abi(), raw::ABI, "libgob has another interface than this crate");
            open(&limits, &mut fault)
        };
        ended(fault)?;
        let reader = NonNull::new(reader).ok_or(Error::Memory)?;
        let mut stream = Stream { reader, types: Types::default(), value: None, _stays: PhantomData };
        stream.know_base();
        Ok(stream)
    }

    // the types of which descriptions are made
    fn know_base(&mut self) {
        for id in 16..=24 {
            // SAFETY: the reader is open; the definition stands until it is closed.
            let found = unsafe { raw::gob_type(self.reader.as_ptr(), id).as_ref() };
            if let Some(item) = found {
                // SAFETY: as above.
                let (nodes, bytes) = unsafe { parts(item) };
                self.types.define(id, nodes, bytes);
            }
        }
    }

    /// Takes the next bytes. The values that are whole with them can be taken then, also those before a fault.
    pub fn feed(&mut self, piece: &[u8]) -> Result<(), Error> {
        let mut fault = raw::Fault::default();
        // SAFETY: the reader is open, and the piece has so many bytes.
        unsafe { raw::gob_feed(self.reader.as_ptr(), piece.as_ptr(), piece.len(), &mut fault) };
        ended(fault)
    }

    /// Says that no byte follows. It is refused within an item.
    pub fn finish(&mut self) -> Result<(), Error> {
        let mut fault = raw::Fault::default();
        // SAFETY: the reader is open.
        unsafe { raw::gob_finish(self.reader.as_ptr(), &mut fault) };
        ended(fault)
    }

    /// The next value that is whole; none until more is fed. The definitions before it are among the types then.
    pub fn next_value(&mut self) -> Result<Option<Part<'_>>, Error> {
        self.advance()?;
        Ok(self.value())
    }

    /// Goes to the next value that is whole, and says whether there is one.
    pub(crate) fn advance(&mut self) -> Result<bool, Error> {
        self.value = None;
        while let Some(item) = self.next_item()? {
            if item.kind != raw::DEFINE {
                self.value = Some(item);
                return Ok(true);
            }
            // SAFETY: the item stands until the next call of the library.
            let (nodes, bytes) = unsafe { parts(&item) };
            self.types.define(item.id, nodes, bytes);
        }
        Ok(false)
    }

    /// The value that was gone to.
    pub(crate) fn value(&self) -> Option<Part<'_>> {
        let item = self.value.as_ref()?;
        // SAFETY: the item stands until the next one is asked for, which asks for the stream alone.
        let (nodes, bytes) = unsafe { parts(item) };
        Some(Part::new(nodes, bytes, &self.types, item.id))
    }

    fn next_item(&mut self) -> Result<Option<raw::Item>, Error> {
        let mut item = MaybeUninit::uninit();
        // SAFETY: the reader is open; where the answer is 1 the item is written.
        match unsafe { raw::gob_next(self.reader.as_ptr(), item.as_mut_ptr()) } {
            1 => Ok(Some(unsafe { item.assume_init() })),
            0 => Ok(None),
            _ => Err(Error::Memory),
        }
    }

    /// The types that are known so far.
    pub fn types(&self) -> &Types {
        &self.types
    }
}

impl Drop for Stream {
    fn drop(&mut self) {
        // SAFETY: it is closed here alone.
        unsafe { raw::gob_close(self.reader.as_ptr()) }
    }
}

/// The nodes and the bytes of an item.
///
/// # Safety
///
/// The item is one that the library gave, and stands for 'a.
unsafe fn parts<'a>(item: &raw::Item) -> (&'a [raw::Node], &'a [u8]) {
    let bytes = if item.size == 0 { &[] } else { slice::from_raw_parts(item.bytes, item.size) };
    (slice::from_raw_parts(item.nodes, item.count), bytes)
}
