//! The calls of the static library, each as a safe function.
//!
//! The declarations are written by hand from `crates/framecoder`; nothing compares them but the
//! agreement that the program asks for before it measures.

/// The answer of a call: the length of the list at the front of the result buffer, or a refusal.
#[repr(C)]
#[derive(Clone, Copy, Debug, PartialEq, Eq)]
pub struct Answer {
    /// The refusal's number; 0 where there is none.
    pub refusal: u32,
    /// The number of the stage whose fault it was; 0 without a fault.
    pub stage: u32,
    /// How many elements the list has; 0 after a refusal.
    pub length: usize,
    /// How far the received list was right; 0 without a fault.
    pub place: usize,
    /// How many plain stages stand nearer the line than that stage; 0 without a fault.
    pub depth: usize,
}

/// Declares calls that numbers set, and gives each a function over slices. A shared and two
/// exclusive slices overlap nowhere, which is all that the library leaves to its caller.
macro_rules! calls {
    ($($name:ident($($setting:ident),*);)*) => {
        mod exported {
            use super::Answer;
            extern "C" {
                $(pub fn $name(
                    $($setting: usize,)*
                    list: *const u8,
                    list_length: usize,
                    work: *mut u8,
                    work_length: usize,
                    result: *mut u8,
                    result_length: usize,
                ) -> Answer;)*
            }
        }
        $(pub fn $name($($setting: usize,)* list: &[u8], work: &mut [u8], result: &mut [u8]) -> Answer {
            unsafe {
                exported::$name(
                    $($setting,)*
                    list.as_ptr(),
                    list.len(),
                    work.as_mut_ptr(),
                    work.len(),
                    result.as_mut_ptr(),
                    result.len(),
                )
            }
        })*
    };
}

calls! {
    framecoder_check_code();
    framecoder_check_decode();
    framecoder_scramble_code();
    framecoder_scramble_decode();
    framecoder_reed_solomon_code(strength);
    framecoder_reed_solomon_decode(strength);
    framecoder_unpack_bits_code();
    framecoder_unpack_bits_decode();
    framecoder_convolution_code();
    framecoder_convolution_decode();
    framecoder_fill_code(bits, total);
    framecoder_fill_decode(bits, total);
    framecoder_repeat_code(times);
    framecoder_repeat_decode(times);
    framecoder_interleave_code(width, rows, blocks);
    framecoder_interleave_decode(width, rows, blocks);
    framecoder_map_code(bits);
    framecoder_map_decode(bits);
}

/// Declares calls that a list sets, likewise.
macro_rules! calls_with_a_list {
    ($($name:ident($setting:ident);)*) => {
        mod exported_with_a_list {
            use super::Answer;
            extern "C" {
                $(pub fn $name(
                    $setting: *const u8,
                    setting_length: usize,
                    list: *const u8,
                    list_length: usize,
                    work: *mut u8,
                    work_length: usize,
                    result: *mut u8,
                    result_length: usize,
                ) -> Answer;)*
            }
        }
        $(pub fn $name($setting: &[u8], list: &[u8], work: &mut [u8], result: &mut [u8]) -> Answer {
            unsafe {
                exported_with_a_list::$name(
                    $setting.as_ptr(),
                    $setting.len(),
                    list.as_ptr(),
                    list.len(),
                    work.as_mut_ptr(),
                    work.len(),
                    result.as_mut_ptr(),
                    result.len(),
                )
            }
        })*
    };
}

calls_with_a_list! {
    framecoder_difference_code(reference);
    framecoder_difference_decode(reference);
}
