//! The traits of commonware-codec, over a stub of that crate (offline.toml).
#![cfg(feature = "commonware-codec")]
use bytes::{BufMut, Bytes};
use commonware_codec::{Buf, BufsMut, Decode, EncodeSize, Error, RangeCfg, Read, Write};
use iobufs::{Builder, EncodeExt, IoBuf, IoBufMut, IoBufs, IoBufsMut};

fn any() -> RangeCfg<usize> {
    (..).into()
}

/// A number and two views.
struct Message(u8, IoBuf, IoBuf);

impl EncodeSize for Message {
    fn encode_size(&self) -> usize {
        1 + self.1.encode_size() + self.2.encode_size()
    }

    fn encode_inline_size(&self) -> usize {
        1 + self.1.encode_inline_size() + self.2.encode_inline_size()
    }
}

impl Write for Message {
    fn write(&self, buf: &mut impl BufMut) {
        buf.put_u8(self.0);
        self.1.write(buf);
        self.2.write(buf);
    }

    fn write_bufs(&self, buf: &mut impl BufsMut) {
        buf.put_u8(self.0);
        self.1.write_bufs(buf);
        self.2.write_bufs(buf);
    }
}

impl Read for Message {
    type Cfg = ();

    fn read_cfg(buf: &mut impl Buf, _: &()) -> Result<Self, Error> {
        if !buf.has_remaining() {
            return Err(Error::EndOfBuffer);
        }
        Ok(Message(buf.get_u8(), IoBuf::read_cfg(buf, &any())?, IoBuf::read_cfg(buf, &any())?))
    }
}

#[test]
fn a_message_is_encoded_without_a_copy() {
    let message = Message(7, IoBuf::from(vec![1; 50]), IoBuf::from(vec![2; 60]));
    let mut plain = IoBufMut::with_capacity(message.encode_size());
    message.write(&mut plain);
    let mut bufs = message.encode_iobufs();
    assert!(bufs == plain && bufs.chunk_count() == 4 && bufs.chunk_at(3).unwrap().as_ptr() == message.2.as_ptr());
    let read = Message::read_cfg(&mut bufs, &()).unwrap();
    assert_eq!((read.0, &read.1, &read.2, bufs.len()), (7, &message.1, &message.2, 0));
    assert_eq!(read.1.as_ptr(), message.1.as_ptr());
    assert_eq!(Message::decode_cfg(plain, &()).unwrap().2, message.2);
}

#[test]
fn views_are_taken() {
    let whole = IoBuf::from(b"abcdef".to_vec());
    let mut view = whole.clone();
    let (first, second): (IoBuf, Bytes) = (Buf::take_owned(&mut view, 2), Buf::take_owned(&mut view, 2));
    assert_eq!((first.as_ptr(), second.as_ptr(), &view[..]), (whole.as_ptr(), whole[2..].as_ptr(), &b"ef"[..]));
    let mut bufs = IoBufs::from([whole.slice(..3), whole.slice(3..)]);
    let (first, across): (Bytes, IoBuf) = (Buf::take_owned(&mut bufs, 2), Buf::take_owned(&mut bufs, 3));
    assert_eq!((first.as_ptr(), across, bufs.len()), (whole.as_ptr(), IoBuf::from(b"cde"), 1));
    assert_eq!(bufs.try_take_owned::<Bytes>(2), Err(Error::EndOfBuffer));
}

#[test]
fn errors() {
    assert_eq!(IoBuf::decode_cfg(IoBuf::from(b"\x03ab"), &any()), Err(Error::EndOfBuffer));
    assert_eq!(IoBuf::decode_cfg(IoBuf::from(b"\x01ab"), &any()), Err(Error::ExtraData(1)));
    assert_eq!(IoBuf::decode_cfg(IoBuf::from(b"\x03abc"), &(..3).into()), Err(Error::InvalidLength(3)));
    let parts = IoBufsMut::from([IoBufMut::from(b"\x03a"), IoBufMut::from(b"bc")]);
    assert_eq!(IoBuf::decode_cfg(parts, &any()), Ok(IoBuf::from(b"abc")));
}

#[test]
fn chunks_are_pushed() {
    let (bytes, view) = (Bytes::from(vec![1; 40]), IoBuf::from(vec![2; 40]));
    let mut builder = Builder::new(1);
    BufsMut::push(&mut builder, bytes.clone());
    builder.put_u8(9);
    BufsMut::push(&mut builder, view.clone());
    let bufs = builder.finish();
    let addresses: Vec<*const u8> = bufs.chunks().map(<[u8]>::as_ptr).collect();
    assert_eq!((addresses[0], addresses[2], bufs.len()), (bytes.as_ptr(), view.as_ptr(), 81));
}
