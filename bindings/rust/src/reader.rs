//! A stream that is read from an input.

use crate::error::Error;
use crate::part::Part;
use crate::stream::{Options, Stream};
use crate::types::Types;
use crate::value::Value;
use std::io::{ErrorKind, Read};
use std::mem;

const PIECE: usize = 1 << 16;

/// A stream that is read from an input, which needs no buffer of its own: it is read in pieces of 64 KiB.
///
/// As an iterator it gives each value as a [`Value`], and ends behind a fault.
pub struct Reader<R> {
    input: R,
    piece: Vec<u8>,
    stream: Stream,
    stage: Stage,
}

enum Stage {
    Open,
    Ended,
    /// A fault that is told behind the values before it.
    Stopping(Error),
    Failed,
}

impl<R: Read> Reader<R> {
    /// A reader of all that Go's encoder writes, under the standard limits.
    pub fn new(input: R) -> Result<Reader<R>, Error> {
        Reader::with(input, Options::default())
    }

    /// A reader under these options.
    pub fn with(input: R, options: Options) -> Result<Reader<R>, Error> {
        Ok(Reader { input, piece: vec![0; PIECE], stream: Stream::new(options)?, stage: Stage::Open })
    }

    /// The next value; none at the end of a whole stream. A fault comes behind the values before it.
    pub fn next_value(&mut self) -> Result<Option<Part<'_>>, Error> {
        while !self.stream.advance()? {
            match mem::replace(&mut self.stage, Stage::Failed) {
                Stage::Open => self.stage = self.fill(),
                Stage::Ended => {
                    self.stage = Stage::Ended;
                    return Ok(None);
                }
                Stage::Stopping(fault) => return Err(fault),
                Stage::Failed => return Err(Error::Failed),
            }
        }
        Ok(self.stream.value())
    }

    /// Feeds the next piece, and says what is next.
    fn fill(&mut self) -> Stage {
        let (fed, next) = match self.input.read(&mut self.piece) {
            Ok(0) => (self.stream.finish(), Stage::Ended),
            Ok(count) => (self.stream.feed(&self.piece[..count]), Stage::Open),
            Err(error) if error.kind() == ErrorKind::Interrupted => (Ok(()), Stage::Open),
            Err(error) => (Err(Error::Input(error)), Stage::Failed),
        };
        match fed {
            Ok(()) => next,
            Err(fault) => Stage::Stopping(fault),
        }
    }

    /// The types that are known so far.
    pub fn types(&self) -> &Types {
        self.stream.types()
    }
}

impl<R: Read> Iterator for Reader<R> {
    type Item = Result<Value, Error>;

    fn next(&mut self) -> Option<Result<Value, Error>> {
        if matches!(self.stage, Stage::Failed) {
            return None;
        }
        self.next_value().map(|value| value.map(|part| part.to_value())).transpose()
    }
}
