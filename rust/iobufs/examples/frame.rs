// [docs: frame_rust]
use iobufs::Frames;

fn main() {
    let mut frames = Frames::default();
    frames.feed(b"\x05wor".into());
    frames.feed(b"ld".into());
    let body = frames.next(..=1024).unwrap().unwrap();
    println!("{}", String::from_utf8_lossy(body.as_ref()));
}
// [docs end]
