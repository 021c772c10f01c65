//! Everyday calls on small values.
use super::*;
use std::io::IoSlice;

/// How often most of these calls are made.
const TURNS: usize = 1000;

pub fn all(add: Add) {
    let runs = [
        ("numbers_read", read_numbers as fn() -> Run),
        ("numbers_put", put_numbers),
        ("new_put64_freeze", new_freeze),
        ("from_vec64", from_vec),
        ("slice_recover_freeze64", slice_recover),
        ("from_array2", from_array),
        ("header_body", header_body),
        ("frames1000_view", frames_view),
        ("equal_views40", equal),
        ("pages4_fill_freeze", fill_pages),
        ("encode_entry64", encode_entry),
        ("decode_entry64", decode_entry),
    ];
    for (name, run) in runs {
        add(name.into(), Box::new(run));
    }
    for n in [2, 3] {
        add(format!("text{n}_clone_drop"), Box::new(move || clone_text(n)));
    }
    for n in [2, 4, 64] {
        add(format!("text{n}_vectored"), Box::new(move || vectored(n)));
    }
}

fn read_numbers() -> Run {
    let whole = native(15 * TURNS);
    let mut view = whole.clone();
    timed(4 * TURNS, || {
        let mut sum = 0u64;
        for _ in 0..TURNS {
            sum = sum.wrapping_add(u64::from(view.get_u8()));
            sum = sum.wrapping_add(u64::from(view.get_u16()));
            sum = sum.wrapping_add(u64::from(view.get_u32()));
            sum = sum.wrapping_add(view.get_u64());
        }
        sum
    })
}

fn put_numbers() -> Run {
    let mut part = IoBufMut::with_capacity(black_box(15 * TURNS));
    timed(4 * TURNS, || {
        for i in 0..TURNS {
            part.put_u8(i as u8);
            part.put_u16(i as u16);
            part.put_u32(i as u32);
            part.put_u64(i as u64);
        }
        mark(part.as_ref())
    })
}

fn new_freeze() -> Run {
    let piece = pattern(64);
    timed(TURNS, || {
        let turn = |_| {
            let mut part = IoBufMut::with_capacity(64);
            part.put_slice(black_box(&piece));
            mark(part.freeze().as_ref())
        };
        (0..TURNS).map(turn).sum()
    })
}

fn from_vec() -> Run {
    let all: Vec<Vec<u8>> = (0..TURNS).map(|_| pattern(64)).collect();
    timed(TURNS, || all.into_iter().map(|bytes| mark(IoBuf::from(bytes).as_ref())).sum())
}

/// Slices a view, recovers its buffer, writes over its last four bytes, and freezes it.
fn slice_recover() -> Run {
    let mut view = native(64);
    timed(TURNS, || {
        let mut sum = 0;
        for i in 0..TURNS {
            sum += mark(view.slice(8..64).as_ref());
            let mut part = view.try_into_mut().expect("a view that nobody shares");
            part.truncate(60);
            part.put_u32(i as u32);
            view = part.freeze();
        }
        sum + mark(view.as_ref())
    })
}

fn from_array() -> Run {
    let (one, other) = (native(64), native(256));
    timed(TURNS, || {
        let join = |_| mark(IoBufs::from([black_box(&one).clone(), other.clone()]).chunk());
        (0..TURNS).map(join).sum()
    })
}

/// A header of eight bytes before a body that others share, as slices for one write; both are then sent.
fn header_body() -> Run {
    let body = native(1024);
    let _shared = body.clone();
    timed(TURNS, || {
        let mut sum = 0;
        for i in 0..TURNS {
            let mut head = IoBufMut::with_capacity(8);
            head.put_u32(1024);
            head.put_u32(i as u32);
            let mut text = IoBufs::from(black_box(&body).clone());
            text.prepend(head.freeze());
            sum += text.chunks_vectored(black_box(&mut [IoSlice::new(&[]); 4])) as u64 + mark(text.chunk());
            text.advance(text.remaining());
        }
        sum
    })
}

/// Frames of 60 bytes in one view, each after its length.
fn frames_view() -> Run {
    let mut part = IoBufMut::with_capacity(64 * TURNS);
    for _ in 0..TURNS {
        part.put_u32(60);
        part.put_slice(&pattern(60));
    }
    let whole = part.freeze();
    let mut view = whole.clone();
    timed(TURNS, || {
        let mut sum = 0;
        for _ in 0..TURNS {
            let len = view.get_u32() as usize;
            sum += mark(view.split_to(len).as_ref());
        }
        sum
    })
}

/// Views of 40 equal bytes, each in its own storage.
fn equal() -> Run {
    let (one, views): (_, Vec<IoBuf>) = (native(40), (0..TURNS).map(|_| native(40)).collect());
    timed(TURNS, || views.iter().map(|view| u64::from(*view == one)).sum())
}

/// Fills four pages in place, 1,024 bytes at once.
fn fill_pages() -> Run {
    let piece = pattern(1024);
    timed(100, || {
        let mut sum = 0;
        for _ in 0..100 {
            let mut pages: IoBufsMut = (0..4).map(|_| IoBufMut::with_capacity(4096)).collect();
            while pages.has_remaining_mut() {
                pages.chunk_mut()[..1024].copy_from_slice(black_box(&piece));
                // SAFETY: these bytes are written.
                unsafe { pages.advance_mut(1024) };
            }
            sum += mark(pages.freeze().chunk());
        }
        sum
    })
}

fn clone_text(n: usize) -> Run {
    let text = text(n);
    timed(copies(n), || (0..copies(n)).map(|_| mark(black_box(&text).clone().chunk())).sum())
}

/// Slices for one write.
fn vectored(n: usize) -> Run {
    let texts: Vec<IoBufs> = (0..copies(n)).map(|_| text(n)).collect();
    let mut slices = [IoSlice::new(&[]); 64];
    timed(copies(n), || {
        let mut sum = 0;
        for text in &texts {
            sum += text.chunks_vectored(black_box(&mut slices)) as u64 + mark(text.chunk());
        }
        sum
    })
}

/// A number and a view, which isn't copied.
fn encode_entry() -> Run {
    let body = native(64);
    timed(TURNS, || {
        let mut sum = 0;
        for i in 0..TURNS {
            let entry = Entry { number: i as u32, body: black_box(&body).clone() };
            let text = entry.encode_iobufs();
            sum += text.chunk_count() as u64 + mark(text.chunk());
        }
        sum
    })
}

fn decode_entry() -> Run {
    let entry = Entry { number: 7, body: native(64) }.encode_iobufs().coalesce();
    let whole = IoBuf::from(entry.as_ref().repeat(TURNS));
    let mut view = whole.clone();
    timed(TURNS, || {
        let mut sum = 0;
        for _ in 0..TURNS {
            let Entry { number, body } = Entry::read_cfg(&mut view, &()).expect("a whole entry");
            sum += u64::from(number) + mark(body.as_ref());
        }
        sum
    })
}
