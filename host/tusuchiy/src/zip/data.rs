//! The data of a member: unpacked by flate2, summed, and held to the place where they end.

use super::bad;
use super::records::Member;
use flate2::bufread::DeflateDecoder;
use flate2::CrcReader;
use std::fs::File;
use std::io::{self, BufReader, Chain, Read};
use std::os::unix::fs::FileExt;

/// What the decoder finds behind packed data: as much as it could ask for, and no further block.
const BEHIND: &[u8] = &[0xFF; 64];

/// So many bytes of a file, from a place on.
struct Piece<'a> {
    file: &'a File,
    place: u64,
    left: u64,
}

impl Read for Piece<'_> {
    fn read(&mut self, into: &mut [u8]) -> io::Result<usize> {
        let most = usize::try_from(self.left).map_or(into.len(), |left| left.min(into.len()));
        let read = self.file.read_at(&mut into[..most], self.place)?;
        self.place += read as u64;
        self.left -= read as u64;
        Ok(read)
    }
}

enum Bytes<'a> {
    Plain(Piece<'a>),
    Packed(DeflateDecoder<BufReader<Chain<Piece<'a>, &'static [u8]>>>),
}

impl Read for Bytes<'_> {
    fn read(&mut self, into: &mut [u8]) -> io::Result<usize> {
        match self {
            Bytes::Plain(bytes) => bytes.read(into),
            Bytes::Packed(bytes) => bytes.read(into).map_err(|_| bad("it is damaged: it can't be unpacked")),
        }
    }
}

/// A member's bytes, to be read to their end.
pub struct Data<'a> {
    member: &'a Member,
    bytes: CrcReader<Bytes<'a>>,
}

impl<'a> Data<'a> {
    pub fn of(file: &'a File, member: &'a Member) -> Self {
        let piece = Piece { file, place: member.data, left: member.packed };
        let bytes = if member.is_packed {
            Bytes::Packed(DeflateDecoder::new(BufReader::with_capacity(1 << 16, piece.chain(BEHIND))))
        } else {
            Bytes::Plain(piece)
        };
        Data { member, bytes: CrcReader::new(bytes) }
    }

    /// Reads what is left of them, at most one byte more than there should be.
    pub fn pass(&mut self) -> io::Result<()> {
        let most = self.member.size + 1;
        io::copy(&mut self.take(most), &mut io::sink()).map(drop)
    }

    /// Says what is wrong with what was read. Packed data that end elsewhere than the directory says would go on elsewhere for a reader of streams.
    pub fn check(&self) -> io::Result<()> {
        let (sum, member) = (self.bytes.crc(), self.member);
        let ends = match self.bytes.get_ref() {
            Bytes::Plain(bytes) => bytes.left == 0,
            Bytes::Packed(bytes) => bytes.total_in() == member.packed,
        };
        if ends && u64::from(sum.amount()) == member.size && u64::from(sum.sum()) == member.checksum {
            Ok(())
        } else {
            Err(bad("it is damaged: size or checksum is wrong"))
        }
    }
}

impl Read for Data<'_> {
    fn read(&mut self, into: &mut [u8]) -> io::Result<usize> {
        self.bytes.read(into)
    }
}
