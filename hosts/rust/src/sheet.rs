use crate::{ffi::entry, Refusal, MAX_SAVED};

/// The longest sheet, in bytes.
pub const MAX_SHEET: usize = 32_768;

/// The bytes of the answer buffer that each newline of a sheet needs.
pub const ANSWER_ROOM: usize = 24;

/// Runs a sheet and writes its answers to the front of the buffer; the bytes behind them stay as they were. Returns the answers' length.
/// Refused with [`Refusal::SheetTooLong`] or [`Refusal::BufferTooShort`].
///
/// ```
/// use sigvort::{run, Refusal, ANSWER_ROOM, MAX_SHEET};
///
/// let sheet = b"n\t1\tvsids\ng\t1\n";
/// let mut answers = [0; 2 * ANSWER_ROOM];
/// let len = run(sheet, &mut answers)?;
/// assert_eq!(&answers[..len], b"1\t0\t-\n2\t0\t0\n");
/// assert_eq!(run(&[b'y'; MAX_SHEET + 1], &mut answers), Err(Refusal::SheetTooLong));
/// # Ok::<(), Refusal>(())
/// ```
pub fn run(sheet: &[u8], answers: &mut [u8]) -> Result<usize, Refusal> {
    ran(entry!(sigvort_run(), as_ptr[sheet], as_mut_ptr[answers]))
}

/// Runs a sheet. Gives its answers and the text of its session at the end, with which [`run_on`] goes on. There is no text where there is no session: the
/// sheet has no line, or its first one is refused. Refused with [`Refusal::SheetTooLong`].
///
/// ```
/// let (answers, text) = sigvort::run_new(b"n\t2\tvmtf\ng\t1\n")?;
/// assert_eq!(answers, "1\t0\t-\n2\t0\t0\n");
/// let (answers, _) = sigvort::run_on(text.unwrap().as_bytes(), b"g\t0\nk\t0\n")?;
/// assert_eq!(answers, "1\t0\t1\n2\t0\t2\n");
///
/// assert_eq!(sigvort::run_new(b"n\t2\theap\n")?, ("1\t3\t-\n".into(), None));
/// # Ok::<(), sigvort::Refusal>(())
/// ```
pub fn run_new(sheet: &[u8]) -> Result<(String, Option<String>), Refusal> {
    let (mut answers, mut text, mut written) = (answer_buffer(sheet), vec![0; MAX_SAVED], 0);
    let len = ran(entry!(sigvort_run_new(), as_ptr[sheet], as_mut_ptr[answers, text] (&mut written)))?;
    let text = (written > 0).then(|| string(&text[..written as usize]));
    Ok((string(&answers[..len]), text))
}

/// Goes on with the session of a text: does the calls of a sheet that has nothing but calls, its lines numbered from 1. Gives the answers and the session's
/// text at the end. Refused with [`Refusal::SheetTooLong`], and then as [`Session::read`](crate::Session::read) is.
///
/// ```
/// use sigvort::{run_on, Refusal, Session};
///
/// let mut session = Session::heap(2)?;
/// session.bump(1)?;
/// let (answers, text) = run_on(session.save()?.as_bytes(), b"g\t1\nc\t1\n")?;
/// assert_eq!(answers, "1\t0\t1\n2\t3\t-\n");
/// assert_eq!(Session::read(text.as_bytes())?.value(1), Some(true));
/// assert_eq!(run_on(b"no text", b"g\t1\n"), Err(Refusal::Saved));
/// # Ok::<(), Refusal>(())
/// ```
pub fn run_on(text: &[u8], sheet: &[u8]) -> Result<(String, String), Refusal> {
    let (mut answers, mut new, mut written) = (answer_buffer(sheet), vec![0; MAX_SAVED], 0);
    let len = ran(entry!(sigvort_run_on(), as_ptr[text, sheet], as_mut_ptr[answers, new] (&mut written)))?;
    Ok((string(&answers[..len]), string(&new[..written as usize])))
}

/// A buffer with room for a sheet's answers. A sheet that is too long is refused whatever its room.
fn answer_buffer(sheet: &[u8]) -> Vec<u8> {
    let lines = sheet.iter().take(MAX_SHEET).filter(|&&byte| byte == b'\n').count();
    vec![0; ANSWER_ROOM * lines]
}

/// What an entry for sheets returned: the length of the answers, or 4294967295 less the number of a refusal.
fn ran(returned: u32) -> Result<usize, Refusal> {
    match Refusal::from_number(u32::MAX - returned) {
        Some(refusal) => Err(refusal),
        None => Ok(returned as usize),
    }
}

/// Bytes that the chooser wrote.
pub(crate) fn string(bytes: &[u8]) -> String {
    String::from_utf8(bytes.to_vec()).expect("answers and texts are ASCII")
}
