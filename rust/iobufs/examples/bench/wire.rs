//! Frames that are sent and received, for Rattle's table. The original's side alone compiles them: one more caller of
//! `read_view` changes what rustc inlines into `decode`.
use super::*;

/// How many bytes a proxy sends at once.
const SENT: usize = 16_384;

pub fn all(add: Add) {
    add("frames_there_and_back".into(), Box::new(|| there_and_back(decode)));
    add("frames_there_and_back_take".into(), Box::new(|| there_and_back(take_frames)));
    add("frames_proxy_mixed".into(), Box::new(proxy));
}

/// Encodes a view, appends each chunk, and returns how many bytes these have.
fn send(view: &IoBuf, to: &mut IoBufs) -> usize {
    let mut text = view.encode_iobufs();
    let len = text.len();
    while text.has_remaining() {
        let n = text.chunk().len();
        to.append(text.take_owned::<IoBuf>(n));
    }
    len
}

fn there_and_back(read: fn(&mut IoBufs) -> u64) -> Run {
    let whole = native(1400);
    timed(1000, || {
        let mut wire = IoBufs::default();
        for i in 0..1000 {
            send(&whole.slice(..i * 37 % 1400 + 1), &mut wire);
        }
        read(&mut wire)
    })
}

/// The lengths of a proxy's frames: of ten, four up to 63 bytes, three 200 to 1,399, two 1,400, and one 16 KiB.
fn proxied_len(i: usize) -> usize {
    match i % 10 {
        0..=3 => i % 56 + 8,
        4..=6 => i * 37 % 1200 + 200,
        7 | 8 => 1400,
        _ => SENT,
    }
}

/// Receives frames of mixed lengths in views of 1,400 bytes, and passes on each that is whole, 16 KiB at once.
fn proxy() -> Run {
    let frame = |i| Vec::from(native(proxied_len(i)).encode_iobufs().coalesce().as_ref());
    let views: Vec<IoBuf> = cut((0..1000).flat_map(frame).collect(), 1400).collect();
    timed(1000, || {
        let (mut input, mut output) = (IoBufs::default(), IoBufs::default());
        // The original adds up its lengths, so the bytes are counted here.
        let (mut read, mut sent, mut sum, mut next) = (0, 0, 0, 0);
        for view in views {
            read += view.len();
            input.append(view);
            while read >= proxied_len(next) + 3 {
                let frame = input.read_view(..=MIB).expect("a whole frame");
                sum += mark(frame.as_ref());
                let len = send(&frame, &mut output);
                (read, sent, next) = (read - len, sent + len, next + 1);
                if sent >= SENT {
                    sum += mark(output.chunk());
                    output.advance(SENT);
                    sent -= SENT;
                }
            }
        }
        sum + sent as u64
    })
}
