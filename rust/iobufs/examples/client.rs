//! A client of records: a codec, frames that are sent over a slow writer and read from chunks of any size, and a journal
//! of pages.
use iobufs::codec::{Decode, Encode};
use iobufs::{Error, FrameWriter, Frames, IoBuf, IoBufMut};
use std::io;

/// The most bytes of a note, of a body, and of a frame.
const NOTE: usize = 32;
const BODY: usize = 1 << 16;
const FRAME: usize = BODY + NOTE + 32;

/// The size of a journal's page, and the marks of an entry and of the page's end.
const PAGE: usize = 256;
const ENTRY: u8 = 0xa5;
const END: u8 = 0;

/// A record: a number, a time, a short note, and a body that isn't copied when it is sent.
#[derive(Clone, Debug, PartialEq)]
struct Record {
    number: u32,
    time: i64,
    note: IoBuf,
    body: IoBuf,
}

iobufs::fields! { Record { number: u32, time: i64, note: IoBuf = ..=NOTE, body: IoBuf = ..=BODY } }

/// A journal: pages of entries, each a mark, a length of two bytes, and a record.
#[derive(Default)]
struct Journal {
    pages: Vec<IoBuf>,
    open: Option<IoBufMut>,
}

impl Journal {
    /// Writes a record to the open page, or to a new one if it doesn't fit. Returns whether it fits into a page at all.
    fn append(&mut self, record: &Record) -> bool {
        let size = record.encode_size();
        if size + 4 > PAGE {
            return false;
        }
        if self.open.as_ref().is_none_or(|page| page.capacity() - page.len() < size + 4) {
            self.close();
        }
        let page = self.open.get_or_insert_with(|| IoBufMut::with_capacity(PAGE));
        page.put_u8(ENTRY);
        page.put_u16(size as u16);
        record.write(page);
        true
    }

    /// Fills the open page up, and keeps it.
    fn close(&mut self) {
        if let Some(mut page) = self.open.take() {
            let spare = page.capacity() - page.len();
            page.put_bytes(END, spare);
            self.pages.push(page.freeze());
        }
    }

    /// Reads all records of the closed pages.
    fn replay(&self) -> Result<Vec<Record>, Error> {
        let mut records = Vec::new();
        for page in &self.pages {
            let mut rest = page.clone();
            while rest.len() >= 3 && rest.get_u8() == ENTRY {
                let size = usize::from(rest.get_u16());
                if size > rest.len() {
                    return Err(Error::EndOfBuffer);
                }
                records.push(Record::decode_cfg(rest.split_to(size), &())?);
            }
        }
        Ok(records)
    }
}

/// A writer that takes few bytes at a time, and counts its writes.
#[derive(Default)]
struct Slow {
    taken: Vec<u8>,
    writes: usize,
}

impl io::Write for Slow {
    fn write(&mut self, bytes: &[u8]) -> io::Result<usize> {
        let n = bytes.len().min(1000);
        self.taken.extend_from_slice(&bytes[..n]);
        self.writes += 1;
        Ok(n)
    }

    fn flush(&mut self) -> io::Result<()> {
        Ok(())
    }
}

fn main() -> Result<(), Box<dyn std::error::Error>> {
    let record = |number: u32, len: usize| Record {
        number,
        time: -i64::from(number),
        note: IoBuf::from(format!("note {number}").into_bytes()),
        body: IoBuf::from(vec![number as u8; len]),
    };
    let records = [record(1, 0), record(2, 100), record(3, 5000), record(4, 64)];

    let mut to = FrameWriter::new(Slow::default(), ..=FRAME);
    for record in &records {
        to.put(record.encode_iobufs())?; // shares the body
    }
    to.send()?;
    let sent = to.into_inner();
    for size in [1, 7, 4096] {
        let (mut frames, mut back) = (Frames::default(), Vec::new());
        for chunk in sent.taken.chunks(size) {
            frames.feed(IoBuf::copy_from_slice(chunk));
            while let Some(body) = frames.next(..=FRAME)? {
                back.push(Record::decode_cfg(body, &())?);
            }
        }
        assert_eq!(back, records);
    }
    let mut frames = Frames::default();
    frames.feed(IoBuf::from(b"\xff\xff\xff\x7f")); // a length above the limit
    assert_eq!(frames.next(..=FRAME), Err(Error::InvalidLength((1 << 28) - 1)));

    let mut journal = Journal::default();
    let fits: Vec<bool> = records.iter().map(|record| journal.append(record)).collect();
    journal.close();
    assert_eq!(fits, [true, true, false, true]);
    assert_eq!(journal.replay()?, [record(1, 0), record(2, 100), record(4, 64)]);
    println!("{} records in {} writes, {} pages", records.len(), sent.writes, journal.pages.len());
    Ok(())
}

#[test]
fn records_come_back_from_frames_and_pages() {
    main().unwrap();
}
