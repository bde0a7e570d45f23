//! The fuzzer's target: one sheet, run by both, the answer buffers compared whole.

use std::slice;

const PATTERN: u8 = 0xa5;

extern "C" {
    /// The proved chooser's entry for sheets, as `hosts/c/sigvort.h` has it. The fuzzer is linked with `libsigvort.a`.
    fn sigvort_run(sheet: *const u8, sheet_len: usize, answers: *mut u8, answers_len: usize) -> u32;
}

/// Runs both on the bytes as a sheet. A difference aborts, and the fuzzer keeps the sheet.
///
/// # Safety
///
/// `data` is readable for `len` bytes.
#[no_mangle]
pub unsafe extern "C" fn LLVMFuzzerTestOneInput(data: *const u8, len: usize) -> i32 {
    let sheet = if len == 0 { &[] } else { slice::from_raw_parts(data, len) };
    let newlines = sheet.iter().filter(|&&byte| byte == b'\n').count();
    // most sheets get the room they need, some a byte less
    let room = (reference::ANSWER_ROOM * newlines).saturating_sub(usize::from(len % 64 == 63));
    let mut expected = vec![PATTERN; room];
    let mut answers = expected.clone();
    let returned = reference::run(sheet, &mut expected);
    let proved = sigvort_run(sheet.as_ptr(), len, answers.as_mut_ptr(), room);
    assert!((returned, &expected) == (proved, &answers), "returned: reference {returned}, proved {proved}");
    0
}
