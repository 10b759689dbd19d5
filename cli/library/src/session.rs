//! Sessions: a file written one record at a time.

use crate::answers::{Counts, Refused, Session, Stepped};

// As include/zs.h has them.
extern "C" {
    fn zs_session_afresh(output: *mut u8, output_len: usize) -> Session;
    fn zs_session_begin(
        session: Session,
        metadata: *const u8,
        metadata_len: usize,
        per_block: u64,
        per_index: u64,
        output: *mut u8,
        output_len: usize,
    ) -> Stepped;
    fn zs_session_add(
        session: Session,
        record: *const u8,
        record_len: usize,
        output: *mut u8,
        output_len: usize,
    ) -> Stepped;
    fn zs_session_close(session: Session, output: *const u8, output_len: usize) -> Stepped;
    fn zs_session_finish(session: Session, output: *mut u8, output_len: usize) -> Stepped;
}

/// The steps. Each takes any session and any output; what it does is promised for both as the last step handed them back, where between two
/// steps the output may get longer by zeros. [`Writer`] keeps them together.
impl Session {
    /// Starts afresh, on any output, which is all zeros then.
    pub fn afresh(output: &mut [u8]) -> Session {
        // SAFETY: the pointer comes with the length of the slice it is taken from, which is borrowed alone.
        unsafe { zs_session_afresh(output.as_mut_ptr(), output.len()) }
    }

    /// Begins a file (28, 30, 9, 31): the output holds the header of an unfinished file.
    pub fn begin(self, metadata: &[u8], counts: Counts, output: &mut [u8]) -> Stepped {
        // SAFETY: each pointer comes with the length of the slice it is taken from, and `output` is borrowed alone.
        unsafe {
            zs_session_begin(
                self,
                metadata.as_ptr(),
                metadata.len(),
                counts.per_block,
                counts.per_index,
                output.as_mut_ptr(),
                output.len(),
            )
        }
    }

    /// Adds a record, which isn't less than the last one (28, 29, 31). A full block is closed before.
    pub fn add(self, record: &[u8], output: &mut [u8]) -> Stepped {
        // SAFETY: each pointer comes with the length of the slice it is taken from, and `output` is borrowed alone.
        unsafe {
            zs_session_add(
                self,
                record.as_ptr(),
                record.len(),
                output.as_mut_ptr(),
                output.len(),
            )
        }
    }

    /// Closes the open block, so that the next record begins another (28).
    pub fn close_block(self, output: &[u8]) -> Stepped {
        // SAFETY: the pointer comes with the length of the slice it is taken from.
        unsafe { zs_session_close(self, output.as_ptr(), output.len()) }
    }

    /// Finishes the file (28, 31): the index over its data blocks, and the whole header. The file is the first `next` bytes of the output.
    pub fn finish(self, output: &mut [u8]) -> Stepped {
        // SAFETY: the pointer comes with the length of the slice it is taken from, which is borrowed alone.
        unsafe { zs_session_finish(self, output.as_mut_ptr(), output.len()) }
    }

    /// A session of any numbers: such as no step hands back, for tests. Of it no more is promised than that every step is safe.
    pub fn from_numbers(numbers: [u64; 11]) -> Self {
        let [records, last, next, rest @ ..] = numbers;
        Session {
            records,
            last,
            next,
            rest,
        }
    }

    /// All numbers of the session, the three figures first.
    pub fn numbers(&self) -> [u64; 11] {
        let mut numbers = [self.records, self.last, self.next, 0, 0, 0, 0, 0, 0, 0, 0];
        numbers[3..].copy_from_slice(&self.rest);
        numbers
    }
}

/// A session together with its output, which no other session can get.
///
/// A step that is refused leaves everything as it was. After 31 the output may be made longer with [`grow`](Writer::grow), and the same step
/// taken again.
#[derive(Clone, Debug, PartialEq, Eq)]
pub struct Writer {
    output: Vec<u8>,
    session: Session,
}

impl Writer {
    /// Starts with an output of so many bytes.
    pub fn new(room: usize) -> Self {
        Writer::on(vec![0; room])
    }

    /// Starts on this output, whatever it holds.
    pub fn on(mut output: Vec<u8>) -> Self {
        let session = Session::afresh(&mut output);
        Writer { output, session }
    }

    /// Starts afresh, with the same output.
    pub fn start_afresh(&mut self) {
        self.session = Session::afresh(&mut self.output);
    }

    /// Begins a file.
    ///
    /// # Errors
    /// 28, 30, 9 and 31, in this order.
    pub fn begin(&mut self, metadata: &[u8], counts: Counts) -> Result<(), Refused> {
        let stepped = self.session.begin(metadata, counts, &mut self.output);
        self.go_on(stepped)
    }

    /// Adds a record, which isn't less than the last one.
    ///
    /// # Errors
    /// 28, 29 and 31, in this order.
    pub fn add(&mut self, record: &[u8]) -> Result<(), Refused> {
        let stepped = self.session.add(record, &mut self.output);
        self.go_on(stepped)
    }

    /// Closes the open block, so that the next record begins another.
    ///
    /// # Errors
    /// 28.
    pub fn close_block(&mut self) -> Result<(), Refused> {
        let stepped = self.session.close_block(&self.output);
        self.go_on(stepped)
    }

    /// Finishes the file, which then is all that [stands](Writer::standing).
    ///
    /// # Errors
    /// 28 and 31, in this order.
    pub fn finish(&mut self) -> Result<(), Refused> {
        let stepped = self.session.finish(&mut self.output);
        self.go_on(stepped)
    }

    /// Makes the output longer, by so many zeros.
    pub fn grow(&mut self, bytes: usize) {
        self.output.resize(self.output.len() + bytes, 0);
    }

    /// How many records the file has.
    pub fn records(&self) -> u64 {
        self.session.records
    }

    /// The offset of the last record, 0 where there is none.
    pub fn last_record(&self) -> u64 {
        self.session.last
    }

    /// The end of all that stands in the output, where the next block goes.
    pub fn next_block(&self) -> u64 {
        self.session.next
    }

    /// The whole output: what stands, and zeros behind it.
    pub fn output(&self) -> &[u8] {
        &self.output
    }

    /// What stands in the output: nothing, an unfinished file, or the finished one.
    pub fn standing(&self) -> &[u8] {
        let end = usize::try_from(self.session.next).ok();
        end.and_then(|end| self.output.get(..end)).unwrap_or(&[])
    }

    /// The same as bytes of one's own.
    pub fn into_standing(mut self) -> Vec<u8> {
        self.output.truncate(self.standing().len());
        self.output
    }

    /// Takes over what a step hands back.
    fn go_on(&mut self, stepped: Stepped) -> Result<(), Refused> {
        self.session = stepped.session;
        match stepped.number {
            0 => Ok(()),
            number => Err(Refused {
                number,
                place: stepped.place,
            }),
        }
    }
}
