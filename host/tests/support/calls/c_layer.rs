//! A request to the C layer: numbers, and slices as pointers and lengths.

use super::{Call, SLICES};
use varnucht::raw;

/// A slice as the C layer takes it.
#[derive(Clone, Copy, Debug)]
pub struct RawSlice {
    pub front: *mut u8,
    pub length: usize,
}

pub const NOTHING: RawSlice = RawSlice {
    front: std::ptr::null_mut(),
    length: 0,
};

/// Asks the C layer.
///
/// # Safety
///
/// Every part is readable over its length; those that the call changes are writable too and overlap no other.
pub unsafe fn ask_c(call: Call, numbers: [u32; 3], parts: &[RawSlice; SLICES]) -> u64 {
    let [image, two, name, new, exec, info, body, out, names, answers, record] = *parts;
    let [a, b, c] = numbers;
    let (i, il, n, nl, o, ol) = (image.front, image.length, name.front, name.length, out.front, out.length);
    // Safety: the caller's promise is the one that every call asks.
    unsafe {
        match call {
            Call::Check => raw::varnucht_check(i, il),
            Call::CheckRelease => raw::varnucht_check_release(i, il),
            Call::List => raw::varnucht_list(i, il, o, ol),
            Call::Read => raw::varnucht_read(i, il, n, nl, o, ol),
            Call::Open => raw::varnucht_open(i, il, n, nl),
            Call::Next => raw::varnucht_next(i, il, a, b, c, o, ol),
            Call::Tree => raw::varnucht_tree(i, il, n, nl, o, ol),
            Call::Start => raw::varnucht_start(i, il, n, nl),
            Call::Sector => raw::varnucht_sector(i, il, two.front, two.length, a, b, c),
            Call::Save => raw::varnucht_save(
                i,
                il,
                a,
                n,
                nl,
                b,
                c,
                exec.front,
                exec.length,
                info.front,
                info.length,
                body.front,
                body.length,
                o,
                ol,
            ),
            Call::Erase => raw::varnucht_erase(i, il, n, nl, o, ol),
            Call::EraseMany => {
                raw::varnucht_erase_many(i, il, names.front, names.length, answers.front, answers.length, o, ol)
            }
            Call::Rename => raw::varnucht_rename(i, il, n, nl, new.front, new.length, o, ol),
            Call::Hide => raw::varnucht_hide(i, il, n, nl, o, ol),
            Call::Show => raw::varnucht_show(i, il, n, nl, o, ol),
            Call::Protect => raw::varnucht_protect(i, il, n, nl, o, ol),
            Call::Release => raw::varnucht_release(i, il, n, nl, o, ol),
            Call::Gather => raw::varnucht_gather(i, il, n, nl, o, ol),
            Call::RecordOpen => raw::varnucht_record_open(
                i,
                il,
                a,
                n,
                nl,
                b,
                c,
                exec.front,
                exec.length,
                info.front,
                info.length,
                record.front,
                record.length,
            ),
            Call::RecordAdd => raw::varnucht_record_add(i, il, body.front, body.length, record.front, record.length, o, ol),
            Call::RecordClose => raw::varnucht_record_close(i, il, record.front, record.length, o, ol),
            Call::ReportAdd => raw::varnucht_report_add(i, il, o, ol),
            Call::ReportJoin => raw::varnucht_report_join(o, ol, two.front, two.length),
        }
    }
}
