//! The boundary to the static library.

/// Plays `input` and writes what is printed into `out`: how many bytes, or nothing if there was no room for all of it. Only whole lines that
/// fit are written then.
#[cfg(not(feature = "plain"))]
pub fn play_into(input: &[u8], out: &mut [u8]) -> Option<usize> {
    const NO_ROOM: u64 = u64::MAX;
    unsafe extern "C" {
        fn tizgulk_play(input: *const u8, input_len: usize, out: *mut u8, out_len: usize) -> u64;
    }
    // SAFETY: both pointers are valid for their lengths for the whole call, neither is null, the bytes of both are initialised, and as
    // one is borrowed mutably they don't overlap. The library keeps neither.
    match unsafe { tizgulk_play(input.as_ptr(), input.len(), out.as_mut_ptr(), out.len()) } {
        NO_ROOM => None,
        written => Some(usize::try_from(written).expect("what was written fits into memory")),
    }
}

/// The same, served by the plain keeper.
#[cfg(feature = "plain")]
pub fn play_into(input: &[u8], out: &mut [u8]) -> Option<usize> {
    let printed = crate::plain::play(input);
    let room = out.len().min(printed.len());
    let lines = printed[..room].iter().rposition(|&b| b == b'\n').map_or(0, |end| end + 1);
    out[..lines].copy_from_slice(&printed[..lines]);
    (printed.len() <= out.len()).then_some(printed.len())
}

/// Whether a plan's text makes sense, in the library's numbers.
#[cfg(not(feature = "plain"))]
pub fn check(plan: &[u8]) -> u32 {
    unsafe extern "C" {
        fn tizgulk_check(plan: *const u8, plan_len: usize) -> u32;
    }
    // SAFETY: the pointer is valid for its length for the whole call, and not null. The library doesn't keep it.
    unsafe { tizgulk_check(plan.as_ptr(), plan.len()) }
}

/// The least levels of a plan's parts, in the library's numbers: `wants[x]` is the level wanted of part x.
#[cfg(not(feature = "plain"))]
pub fn least_into(plan: &[u8], wants: &[u32], levels: &mut [u32]) -> u32 {
    unsafe extern "C" {
        fn tizgulk_least(plan: *const u8, plan_len: usize, wants: *const u32, wants_len: usize, levels: *mut u32, levels_len: usize)
        -> u32;
    }
    // SAFETY: each pointer is valid and aligned for its length for the whole call, and not null; all is initialised, and `levels`, which is
    // borrowed mutably, overlaps nothing. The library keeps none of them.
    unsafe { tizgulk_least(plan.as_ptr(), plan.len(), wants.as_ptr(), wants.len(), levels.as_mut_ptr(), levels.len()) }
}
