//! The C interface (`include/gurvoke.h`) called from Rust: the same five functions, whichever library
//! has them.

/// Declares the five functions of a library by their names in C, and a safe one for each.
macro_rules! c_interface {
    ($compile:ident, $decompile:ident, $begin:ident, $offer:ident, $settle:ident) => {
        extern "C" {
            fn $compile(file: *const u8, file_len: usize, table: *mut u8, table_len: usize) -> u32;

            fn $decompile(
                table: *const u8,
                table_len: usize,
                file: *mut u8,
                file_len: usize,
            ) -> u32;

            fn $begin(
                table: *const u8,
                table_len: usize,
                estimate: *const u8,
                estimate_len: usize,
                record: *mut u8,
                record_len: usize,
            ) -> u32;

            fn $offer(
                table: *const u8,
                table_len: usize,
                record: *mut u8,
                record_len: usize,
                time: u32,
                goals: *mut u8,
                goals_len: usize,
            ) -> u32;

            fn $settle(
                table: *const u8,
                table_len: usize,
                record: *mut u8,
                record_len: usize,
                estimate: *const u8,
                estimate_len: usize,
            ) -> u32;
        }

        /// Reads a program file and writes its location table to the front of `table`.
        ///
        /// The error is the refusal's number. A refused call writes nothing, and an accepted one
        /// writes nothing past the table.
        pub fn compile(file: &[u8], table: &mut [u8]) -> Result<(), u32> {
            let (file_len, table_len) = (file.len(), table.len());
            // SAFETY: the pointers come from slices of these lengths, which do not overlap.
            let number =
                unsafe { $compile(file.as_ptr(), file_len, table.as_mut_ptr(), table_len) };
            $crate::answer(number)
        }

        /// Writes the program file that gives `table` to the front of `file`.
        ///
        /// The error is the refusal's number. A refused call writes nothing, and an accepted one
        /// writes nothing past the file.
        pub fn decompile(table: &[u8], file: &mut [u8]) -> Result<(), u32> {
            let (table_len, file_len) = (table.len(), file.len());
            // SAFETY: the pointers come from slices of these lengths, which do not overlap.
            let number =
                unsafe { $decompile(table.as_ptr(), table_len, file.as_mut_ptr(), file_len) };
            $crate::answer(number)
        }

        /// Begins a run of `table` in `record`. The answer is `DONE`, or the refusal's number.
        pub fn begin(table: &[u8], estimate: &[u8], record: &mut [u8]) -> u32 {
            // SAFETY: the pointers come from slices of the given lengths, which do not overlap.
            unsafe {
                $begin(
                    table.as_ptr(),
                    table.len(),
                    estimate.as_ptr(),
                    estimate.len(),
                    record.as_mut_ptr(),
                    record.len(),
                )
            }
        }

        /// Offers the goals of a cycle at this time. The answer is the refusal's number, or
        /// `ANSWERED` and the lowest contested variable, `NO_VARIABLE` where there is none.
        pub fn offer(table: &[u8], record: &mut [u8], time: u32, goals: &mut [u8]) -> u32 {
            // SAFETY: the pointers come from slices of the given lengths, which do not overlap.
            unsafe {
                $offer(
                    table.as_ptr(),
                    table.len(),
                    record.as_mut_ptr(),
                    record.len(),
                    time,
                    goals.as_mut_ptr(),
                    goals.len(),
                )
            }
        }

        /// Settles a cycle with this estimate. The answer is the refusal's number, `RUNNING` while
        /// the run goes on, or `FINISHED`.
        pub fn settle(table: &[u8], record: &mut [u8], estimate: &[u8]) -> u32 {
            // SAFETY: the pointers come from slices of the given lengths, which do not overlap.
            unsafe {
                $settle(
                    table.as_ptr(),
                    table.len(),
                    record.as_mut_ptr(),
                    record.len(),
                    estimate.as_ptr(),
                    estimate.len(),
                )
            }
        }
    };
}

pub(crate) use c_interface;
