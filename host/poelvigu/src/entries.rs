//! The entries of the archive. Their signatures stand here alone, and all that is unsafe.

/// How many numbers [`lower_numbers`] answers.
pub const ANSWER: usize = 10;

/// How many numbers [`lower_with_numbers`] answers.
pub const ANSWER_WITH: usize = 11;

mod c {
    extern "C" {
        /// 0 and offset 0 for an accepted routine, else the refusal's number and its offset.
        pub fn poelvigu_check(input: *const u8, input_len: usize, offset: *mut u64) -> u8;

        /// Rewrites the routine in `input` into `output`, and answers in numbers.
        pub fn poelvigu_lower(
            input: *const u8,
            input_len: usize,
            output: *mut u8,
            output_len: usize,
            tuples: u64,
            structs: u64,
            most: u64,
            answer: *mut u64,
            answer_len: usize,
        );

        /// The same under choices by place, with a page.
        pub fn poelvigu_lower_with(
            input: *const u8,
            input_len: usize,
            output: *mut u8,
            output_len: usize,
            page: *mut u8,
            page_len: usize,
            choices: *const u64,
            choices_len: usize,
            answer: *mut u64,
            answer_len: usize,
        );
    }
}

/// The answer of the entry `poelvigu_check` as it stands: 0 and 0, or a refusal's number and its offset.
pub fn check_numbers(input: &[u8]) -> (u8, u64) {
    // A number that no answer has, so that one which is not written is seen.
    let mut offset = u64::MAX;
    // SAFETY: the entry reads the `input_len` bytes that are lent to it and writes the one offset;
    // it keeps neither pointer.
    let number = unsafe { c::poelvigu_check(input.as_ptr(), input.len(), &mut offset) };
    (number, offset)
}

/// The answer of the entry `poelvigu_lower` as it stands, under the settings tuples, structs and most:
/// refusal number and offset, result, the five counts in the order of [`Counts`](crate::Counts),
/// shelf reason, length of the output. A refusal has 0 behind its offset, an accepted routine
/// before its result.
pub fn lower_numbers(input: &[u8], output: &mut [u8], settings: [u64; 3]) -> [u64; ANSWER] {
    let [tuples, structs, most] = settings;
    // Numbers that no answer has, so that one which is not written is seen.
    let mut answer = [u64::MAX; ANSWER];
    // SAFETY: the entry reads the `input_len` bytes, writes at most `output_len` bytes and
    // `answer_len` numbers, all lent to it and apart from one another; it keeps no pointer.
    unsafe {
        c::poelvigu_lower(
            input.as_ptr(),
            input.len(),
            output.as_mut_ptr(),
            output.len(),
            tuples,
            structs,
            most,
            answer.as_mut_ptr(),
            answer.len(),
        );
    }
    answer
}

/// The answer of the entry `poelvigu_lower_with` as it stands, under choices by place (see
/// [`Choices::to_numbers`](crate::Choices::to_numbers)), of which those at the end may be missing:
/// the numbers of [`lower_numbers`], and the length of the page.
pub fn lower_with_numbers(
    input: &[u8],
    output: &mut [u8],
    page: &mut [u8],
    choices: &[u64],
) -> [u64; ANSWER_WITH] {
    // Numbers that no answer has, so that one which is not written is seen.
    let mut answer = [u64::MAX; ANSWER_WITH];
    // SAFETY: the entry reads the `input_len` bytes and the `choices_len` numbers, writes at most
    // `output_len` and `page_len` bytes and `answer_len` numbers, all lent to it and apart from one
    // another; it keeps no pointer.
    unsafe {
        c::poelvigu_lower_with(
            input.as_ptr(),
            input.len(),
            output.as_mut_ptr(),
            output.len(),
            page.as_mut_ptr(),
            page.len(),
            choices.as_ptr(),
            choices.len(),
            answer.as_mut_ptr(),
            answer.len(),
        );
    }
    answer
}
