//! A file that is in memory, and outlives the journal that is open in it.

use desk::journal::Disk;
use std::cell::RefCell;
use std::io::{self, Cursor, Read};
use std::rc::Rc;

/// The bytes of a file.
#[derive(Clone, Default)]
pub struct Memory(pub Rc<RefCell<Vec<u8>>>);

impl Memory {
    /// A file with these bytes.
    pub fn of(bytes: &[u8]) -> Memory {
        Memory(Rc::new(RefCell::new(bytes.to_vec())))
    }

    /// The bytes that it has now.
    pub fn now(&self) -> Vec<u8> {
        self.0.borrow().clone()
    }
}

impl Disk for Memory {
    fn bytes(&self) -> io::Result<Box<dyn Read + '_>> {
        Ok(Box::new(Cursor::new(self.0.borrow().clone())))
    }

    fn length(&self) -> io::Result<u64> {
        Ok(self.0.borrow().len() as u64)
    }

    fn append(&mut self, bytes: &[u8]) -> io::Result<()> {
        self.0.borrow_mut().extend_from_slice(bytes);
        Ok(())
    }

    fn sync(&mut self) -> io::Result<()> {
        Ok(())
    }

    fn cut(&mut self, length: u64) -> io::Result<()> {
        self.0.borrow_mut().truncate(length as usize);
        Ok(())
    }

    fn sync_name(&mut self) -> io::Result<()> {
        Ok(())
    }
}
