//! The C library `libiobufs`, from its proved sources: the calls of `c/include/iobufs.h`. They have
//! `unsafe` code where they use the memory that C names. To C a slice is two arguments, an address and a length, and the
//! allocator none: so rustc passes them, as the kit's compiler does, while registers are left. `c/tests/calls.c`
//! and `protocols.c` call each.

// Slices as two arguments lean on these conventions of calls.
#[cfg(not(all(target_os = "linux", target_env = "gnu", any(target_arch = "x86_64", target_arch = "aarch64"))))]
compile_error!("the library is for Linux with glibc, on x86-64 or arm64");

use ::kit;

#[allow(dead_code, unused_imports, unused_variables, unsafe_op_in_unsafe_fn, improper_ctypes_definitions, clippy::all)]
mod proved {
    include!(concat!(env!("OUT_DIR"), "/proved.rs"));
}

// The header's memory is aligned to eight bytes.
const _: () = {
    use proved::iobufs::{bufs::IoBufs, bufs_mut::IoBufsMut, builder::Builder};
    use proved::iobufs_core::buf::{IoBuf, IoBufMut};
    use proved::iobufs_frames::{Frames, Received};
    assert!(align_of::<(IoBuf, IoBufMut, IoBufs, IoBufsMut, Builder, Frames, Received)>() <= 8)
};
