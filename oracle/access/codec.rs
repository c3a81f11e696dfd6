
/// A reader at any place, and a writer that has written any bytes.
pub mod oracle_access {
    use super::{Reader, Writer};

    pub fn reader(buf: &[u8], pos: usize) -> Reader<'_> {
        Reader { buf, pos }
    }

    pub fn writer(buf: alloc::vec::Vec<u8>) -> Writer {
        Writer { buf }
    }
}
