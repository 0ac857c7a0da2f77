//! Text on its way to standard output.

use crate::faults::Fault;
use crate::fields::Json;
use std::io::{self, Write};

/// How many bytes are read or written at once.
pub const PIECE: usize = 1 << 18;

#[derive(Default)]
pub struct Out {
    pub text: Vec<u8>,
}

impl Out {
    /// Writes what there is, if it is a piece.
    pub fn pass(&mut self) -> Result<(), Fault> {
        if self.text.len() < PIECE {
            return Ok(());
        }
        self.end()
    }

    /// Writes what there is.
    pub fn end(&mut self) -> Result<(), Fault> {
        let mut sink = io::stdout();
        sink.write_all(&self.text).and_then(|()| sink.flush()).map_err(Fault::Write)?;
        self.text.clear();
        Ok(())
    }

    pub fn object(&mut self, tell: impl FnOnce(&mut Json<'_>)) -> Result<(), Fault> {
        let mut json = Json::new(&mut self.text);
        tell(&mut json);
        json.end();
        self.pass()
    }
}
