//! A session: what accepted entries at a prompt declared, in words and bytes that this crate owns.
use crate::{
    plush_enter, plush_name_text, plush_preview, plush_session_fresh, plush_withdraw, told, Refusal, Resolved, REPORT_WORDS,
};

/// The words of a session.
pub const SESSION_WORDS: usize = 51088;
/// The bytes of a session.
pub const SESSION_BYTES: usize = 32936;

// The words of a place: in which bytes a text stands, from which byte on, and how many it has.
const PLACE_WORDS: usize = 3;
const IN_SESSION: u32 = 0;

/// Whose number of a name it is: the session's, as in answer rows, or that of an entry with these names, as in its refusals.
#[derive(Clone, Copy, Debug, PartialEq, Eq)]
pub enum NumberOf<'a> {
    Session,
    Entry(&'a [u8]),
}

/// A session at a prompt. It is plain data: a clone goes on by itself.
#[derive(Clone, Debug, PartialEq, Eq)]
pub struct Session {
    words: Vec<u32>,
    bytes: Vec<u8>,
}

impl Session {
    /// A fresh session: nothing is declared.
    pub fn new() -> Session {
        let mut session = Session { words: vec![0; SESSION_WORDS], bytes: vec![0; SESSION_BYTES] };
        session.clear();
        session
    }

    /// Makes it a fresh one again.
    pub fn clear(&mut self) {
        let (words, bytes) = (&mut self.words, &mut self.bytes);
        unsafe { plush_session_fresh(words.as_mut_ptr(), words.len(), bytes.as_mut_ptr(), bytes.len()) };
    }

    /// Its words, to be stored.
    pub fn words(&self) -> &[u32] {
        &self.words
    }

    /// Its bytes, to be stored.
    pub fn bytes(&self) -> &[u8] {
        &self.bytes
    }

    /// The session of stored words and bytes. They may be any; those that are no session are refused when something is entered.
    pub fn from_parts(words: Vec<u32>, bytes: Vec<u8>) -> Session {
        Session { words, bytes }
    }

    /// Enters a sheet of one unit without imports, its answer rows into the lent words, with the session's numbers of names. After a refusal every
    /// one of the lent words is 0 and the session is as before, but that questions 5 to 21 may leave it with more globals.
    pub fn enter<'a>(&mut self, sheet: &[u32], names: &[u8], answer: &'a mut [u32]) -> Result<Resolved<'a>, Refusal> {
        let mut report = [0; REPORT_WORDS];
        // All pointers are those of slices that live to the end of the call; the four that are written are lent to it alone.
        unsafe {
            plush_enter(
                self.words.as_mut_ptr(),
                self.words.len(),
                self.bytes.as_mut_ptr(),
                self.bytes.len(),
                sheet.as_ptr(),
                sheet.len(),
                names.as_ptr(),
                names.len(),
                answer.as_mut_ptr(),
                answer.len(),
                report.as_mut_ptr(),
                report.len(),
            )
        };
        told(report, answer)
    }

    /// What `enter` would answer, with the same rows in the lent words. The session stays as it is.
    pub fn preview<'a>(&self, sheet: &[u32], names: &[u8], answer: &'a mut [u32]) -> Result<Resolved<'a>, Refusal> {
        let mut report = [0; REPORT_WORDS];
        // All pointers are those of slices that live to the end of the call; the two that are written are lent to it alone.
        unsafe {
            plush_preview(
                self.words.as_ptr(),
                self.words.len(),
                self.bytes.as_ptr(),
                self.bytes.len(),
                sheet.as_ptr(),
                sheet.len(),
                names.as_ptr(),
                names.len(),
                answer.as_mut_ptr(),
                answer.len(),
                report.as_mut_ptr(),
                report.len(),
            )
        };
        told(report, answer)
    }

    /// Withdraws the latest accepted entry that is left: visible names, texts of names, classes and the number of entries are again those before it. The
    /// globals that it used stay used. After a refusal the session is as before.
    pub fn withdraw(&mut self) -> Result<(), Refusal> {
        let mut report = [0; REPORT_WORDS];
        unsafe {
            plush_withdraw(
                self.words.as_mut_ptr(),
                self.words.len(),
                self.bytes.as_ptr(),
                self.bytes.len(),
                report.as_mut_ptr(),
                report.len(),
            )
        };
        told(report, &[]).map(|_| ())
    }

    /// How many entries it has that were accepted and not withdrawn.
    pub fn entries(&self) -> u32 {
        self.words.get(1).copied().unwrap_or(0)
    }

    /// How many globals it has: where the next entry starts, or above.
    pub fn globals(&self) -> u32 {
        self.words.first().copied().unwrap_or(0)
    }

    /// How many different names are visible, the nine core names among them: a name that is declared again counts once.
    pub fn names_shown(&self) -> u32 {
        self.words.get(2).copied().unwrap_or(0)
    }

    /// The text of a name, as a part of the session's bytes or of the entry's names. Empty where the number names nothing, or where the
    /// list in which it would stand is refused.
    pub fn name_text<'a>(&'a self, whose: NumberOf<'a>, number: u32) -> &'a [u8] {
        let (names, entry): (&[u8], u32) = match whose {
            NumberOf::Session => (&[], 0),
            NumberOf::Entry(names) => (names, 1),
        };
        let mut place = [0; PLACE_WORDS];
        unsafe {
            plush_name_text(
                self.words.as_ptr(),
                self.words.len(),
                self.bytes.as_ptr(),
                self.bytes.len(),
                names.as_ptr(),
                names.len(),
                entry,
                number,
                place.as_mut_ptr(),
                place.len(),
            )
        };
        let [list, start, length] = place;
        let bytes = if list == IN_SESSION { &self.bytes } else { names };
        &bytes[start as usize..][..length as usize]
    }
}

impl Default for Session {
    fn default() -> Session {
        Session::new()
    }
}
