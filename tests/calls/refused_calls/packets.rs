//! The calls of packets, on a machine of two pages of one cell.

use crate::refusing::Refuser;
use migration_types::{Contents, Geometry, PageNo, Shared};
use page_stream::{Packet, Stream, StreamFaultKind, encode, fits, pump};
use std::alloc::{AllocError, Global};
use std::io;
use std::io::{Read, Write};

/// A state with no released page, one that releases page 1, page 0 with the value 5, a want of page 0, and that all pages are
/// placed.
const FIVE: [u8; 73] = [
    0, 0, 0, 9, 1, 0, 0, 0, 1, 0, 0, 0, 0, 0, 0, 0, 13, 1, 0, 0, 0, 1, 0, 0, 0, 1, 0, 0, 0, 1, 0,
    0, 0, 17, 2, 0, 0, 0, 3, 0, 0, 0, 0, 0, 0, 0, 0, 0, 0, 0, 5, 0, 0, 0, 9, 3, 0, 0, 0, 3, 0, 0,
    0, 0, 0, 0, 0, 5, 4, 0, 0, 0, 9,
];

/// Where each of them ends.
const ENDS: [usize; 5] = [13, 30, 51, 64, 73];

fn state(alloc: Global, pages: &[PageNo]) -> Result<Packet, AllocError> {
    Ok(Packet::State {
        number: 1,
        released: Shared::from_vec(Vec::from_slice(alloc, pages)?)?,
    })
}

/// The five packets.
fn five(alloc: Global) -> Option<[Packet; 5]> {
    let (first, second) = (PageNo::new(0), PageNo::new(1));
    Some([
        state(alloc, &[]).ok()?,
        state(alloc, &[second]).ok()?,
        Packet::Page {
            number: 3,
            page: first,
            cells: Contents::one(5),
        },
        Packet::Want {
            number: 3,
            page: first,
        },
        Packet::All { number: 9 },
    ])
}

fn written(refuser: Refuser, geometry: Geometry) -> Option<()> {
    let alloc = refuser.alloc();
    let five = five(alloc)?;
    let mut from = 0;
    for k in 0..5 {
        let does_fit = refuser.none("page_stream::fits", || fits(geometry, &five[k]));
        refuser.right(does_fit);
        let wanted = &FIVE[from..ENDS[k]];
        refuser.each(
            "page_stream::encode",
            || encode(alloc, &five[k]),
            |bytes: &Vec<u8>| bytes.as_slice() == wanted,
        )?;
        from = ENDS[k];
    }
    Some(())
}

/// The bytes of these packets.
fn bytes_of(alloc: Global, packets: &[Packet]) -> Option<Vec<u8>> {
    let mut out = Vec::new(alloc);
    for packet in packets {
        out.extend_from_slice(encode(alloc, packet).ok()?.as_slice())
            .ok()?;
    }
    Some(out)
}

/// How many of the bytes the packets have that end among so many of them.
fn whole(len: usize) -> usize {
    let mut whole = 0;
    for end in ENDS {
        if end <= len {
            whole = end;
        }
    }
    whole
}

/// The packets come so many bytes at a time.
fn fed(refuser: Refuser, geometry: Geometry, size: usize) -> Option<()> {
    let alloc = refuser.alloc();
    let mut stream = refuser.none("page_stream::Stream::new", || Stream::new(alloc, geometry));
    refuser.right(true);
    let (mut came, mut told) = (0, 0);
    for piece in FIVE.chunks(size) {
        let packets = refuser.each_on(
            "page_stream::Stream::feed",
            &mut stream,
            |stream: &mut Stream| stream.feed(piece),
            |_| true,
        )?;
        came += piece.len();
        let bytes = bytes_of(alloc, packets.as_slice())?;
        refuser.right(bytes.as_slice() == &FIVE[told..whole(came)]);
        told = whole(came);
    }
    Some(())
}

/// Gives so many bytes a read.
#[derive(Drop)]
struct Source<'a> {
    rest: &'a [u8],
    most: usize,
}

impl<'a> Read for Source<'a> {
    fn read(&mut self, buf: &mut [u8]) -> io::Result<usize> {
        let count = self.rest.len().min(self.most).min(buf.len());
        buf[..count].copy_from_slice(&self.rest[..count]);
        self.rest = &self.rest[count..];
        Ok(count)
    }
}

/// Takes no more bytes than the packets have, and no memory.
#[derive(Drop)]
struct Sink {
    got: [u8; 73],
    len: usize,
}

impl Write for Sink {
    fn write(&mut self, buf: &[u8]) -> io::Result<usize> {
        let count = buf.len().min(73 - self.len);
        self.got[self.len..self.len + count].copy_from_slice(&buf[..count]);
        self.len += count;
        Ok(count)
    }

    fn flush(&mut self) -> io::Result<()> {
        Ok(())
    }
}

/// The packets go over so many bytes at a time.
fn pumped(refuser: Refuser, geometry: Geometry, size: usize) -> Option<()> {
    let alloc = refuser.alloc();
    let mut sink = Sink {
        got: [0; 73],
        len: 0,
    };
    let count = refuser.each_on(
        "page_stream::pump",
        &mut sink,
        |sink: &mut Sink| {
            let mut source = Source {
                rest: &FIVE,
                most: size,
            };
            sink.len = 0;
            pump(alloc, &mut source, sink, geometry, 80)
        },
        |sink: &Sink| sink.got[..sink.len] == FIVE[..sink.len],
    )?;
    refuser.right(count == 5 && sink.len == 73 && sink.got == FIVE);
    Some(())
}

/// A letter for each packet.
fn letter_of(packet: &Packet) -> u8 {
    match packet {
        Packet::State { .. } => b'S',
        Packet::Page { .. } => b'P',
        Packet::Want { .. } => b'W',
        Packet::All { .. } => b'A',
    }
}

/// A letter for each kind of fault.
fn letter_for(kind: StreamFaultKind) -> u8 {
    match kind {
        StreamFaultKind::Length => b'l',
        StreamFaultKind::Kind => b'k',
        StreamFaultKind::Fields => b'f',
        StreamFaultKind::Memory => b'm',
        StreamFaultKind::Broken => b'b',
    }
}

/// Tells what a new stream answers to these bytes: a letter for each packet, and for a fault.
fn told(refuser: Refuser, geometry: Geometry, bytes: &[u8]) -> Option<()> {
    let mut stream = Stream::new(refuser.alloc(), geometry);
    let mut line = Vec::from_slice(refuser.alloc(), b"stream ").ok()?;
    let (packets, fault) = match stream.feed(bytes) {
        Ok(packets) => (packets, None),
        Err(fault) => (fault.before, Some(fault.kind)),
    };
    for packet in packets.as_slice() {
        line.push(letter_of(packet)).ok()?;
    }
    if let Some(kind) = fault {
        line.push(letter_for(kind)).ok()?;
    }
    line.push(b'\n').ok()?;
    refuser.tell(line.as_slice());
    Some(())
}

/// The packets cut before each byte, and with each byte changed.
fn changed(refuser: Refuser, geometry: Geometry) -> Option<()> {
    for at in 0..73usize {
        told(refuser, geometry, &FIVE[..at])?;
        for new in [0, 1, 2, 4, 5, 13, 16, 255] {
            let mut bytes = FIVE;
            bytes[at] = new;
            told(refuser, geometry, &bytes)?;
        }
    }
    Some(())
}

/// Makes the calls.
pub fn make(refuser: Refuser) -> Option<()> {
    let geometry = Geometry::new(2, 1).ok()?;
    written(refuser, geometry)?;
    for size in [1, 7, 40, 73] {
        fed(refuser, geometry, size)?;
        pumped(refuser, geometry, size)?;
    }
    changed(refuser, geometry)
}
