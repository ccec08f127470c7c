//! The library's functions as C sees them. The only place with `unsafe` in it: a slice is handed
//! on as its pointer, which is never null, and its length; slices that are written to overlap with
//! nothing, since they are lent by `&mut`.

mod c {
    extern "C" {
        pub fn tt_kind(file: *const u8, file_n: usize) -> u64;
        pub fn tt_reason(number: u32, out: *mut u8, out_n: usize) -> u64;
        pub fn tt_sid_read(file: *const u8, file_n: usize) -> u64;
        pub fn tt_sid_fields(file: *const u8, file_n: usize, out: *mut u32, out_n: usize) -> u64;
        pub fn tt_sid_load(file: *const u8, file_n: usize, memory: *mut u8, memory_n: usize)
            -> u64;
        pub fn tt_sid_speed(file: *const u8, file_n: usize, song: u32) -> u64;
        pub fn tt_mus_accept(file: *const u8, file_n: usize, out: *mut u32, out_n: usize) -> u64;
        pub fn tt_mus_load(file: *const u8, file_n: usize) -> u64;
        pub fn tt_mus_line(
            file: *const u8,
            file_n: usize,
            line: u32,
            out: *mut u32,
            out_n: usize,
        ) -> u64;
        pub fn tt_mus_voices(file: *const u8, file_n: usize, out: *mut u32, out_n: usize) -> u64;
        pub fn tt_mus_list(
            file: *const u8,
            file_n: usize,
            voice: u32,
            first: u64,
            offsets: *mut u32,
            offsets_n: usize,
            jiffies: *mut u32,
            jiffies_n: usize,
        ) -> u64;
        pub fn tt_mus_length(
            file: *const u8,
            file_n: usize,
            voice: u32,
            out: *mut u64,
            out_n: usize,
        ) -> u64;
        pub fn tt_pair_read(first: u8, second: u8) -> u64;
        pub fn tt_pair_write(code: u32) -> u64;
        pub fn tt_half_step(code: u32) -> u64;
        pub fn tt_sap_read(file: *const u8, file_n: usize) -> u64;
        pub fn tt_sap_fields(file: *const u8, file_n: usize, out: *mut u32, out_n: usize) -> u64;
        pub fn tt_sap_load(file: *const u8, file_n: usize, memory: *mut u8, memory_n: usize)
            -> u64;
        pub fn tt_sap_time(file: *const u8, file_n: usize, song: u32) -> u64;
        pub fn tt_sap_block(
            file: *const u8,
            file_n: usize,
            n: u32,
            out: *mut u32,
            out_n: usize,
        ) -> u64;
    }
}

pub fn kind(file: &[u8]) -> u64 {
    // SAFETY: the slice is valid for reads of its length.
    unsafe { c::tt_kind(file.as_ptr(), file.len()) }
}

pub fn reason(number: u32, out: &mut [u8]) -> u64 {
    // SAFETY: the slice is valid for writes of its length.
    unsafe { c::tt_reason(number, out.as_mut_ptr(), out.len()) }
}

pub fn sid_read(file: &[u8]) -> u64 {
    // SAFETY: the slice is valid for reads of its length.
    unsafe { c::tt_sid_read(file.as_ptr(), file.len()) }
}

pub fn sid_fields(file: &[u8], out: &mut [u32]) -> u64 {
    // SAFETY: both slices are valid for their lengths and apart.
    unsafe { c::tt_sid_fields(file.as_ptr(), file.len(), out.as_mut_ptr(), out.len()) }
}

pub fn sid_load(file: &[u8], memory: &mut [u8]) -> u64 {
    // SAFETY: both slices are valid for their lengths and apart.
    unsafe { c::tt_sid_load(file.as_ptr(), file.len(), memory.as_mut_ptr(), memory.len()) }
}

pub fn sid_speed(file: &[u8], song: u32) -> u64 {
    // SAFETY: the slice is valid for reads of its length.
    unsafe { c::tt_sid_speed(file.as_ptr(), file.len(), song) }
}

pub fn mus_accept(file: &[u8], out: &mut [u32]) -> u64 {
    // SAFETY: both slices are valid for their lengths and apart.
    unsafe { c::tt_mus_accept(file.as_ptr(), file.len(), out.as_mut_ptr(), out.len()) }
}

pub fn mus_load(file: &[u8]) -> u64 {
    // SAFETY: the slice is valid for reads of its length.
    unsafe { c::tt_mus_load(file.as_ptr(), file.len()) }
}

pub fn mus_line(file: &[u8], line: u32, out: &mut [u32]) -> u64 {
    // SAFETY: both slices are valid for their lengths and apart.
    unsafe { c::tt_mus_line(file.as_ptr(), file.len(), line, out.as_mut_ptr(), out.len()) }
}

pub fn mus_voices(file: &[u8], out: &mut [u32]) -> u64 {
    // SAFETY: both slices are valid for their lengths and apart.
    unsafe { c::tt_mus_voices(file.as_ptr(), file.len(), out.as_mut_ptr(), out.len()) }
}

pub fn mus_list(
    file: &[u8],
    voice: u32,
    first: u64,
    offsets: &mut [u32],
    jiffies: &mut [u32],
) -> u64 {
    // SAFETY: all three slices are valid for their lengths and apart.
    unsafe {
        c::tt_mus_list(
            file.as_ptr(),
            file.len(),
            voice,
            first,
            offsets.as_mut_ptr(),
            offsets.len(),
            jiffies.as_mut_ptr(),
            jiffies.len(),
        )
    }
}

pub fn mus_length(file: &[u8], voice: u32, out: &mut [u64]) -> u64 {
    // SAFETY: both slices are valid for their lengths and apart.
    unsafe {
        c::tt_mus_length(
            file.as_ptr(),
            file.len(),
            voice,
            out.as_mut_ptr(),
            out.len(),
        )
    }
}

pub fn pair_read(first: u8, second: u8) -> u64 {
    // SAFETY: numbers only.
    unsafe { c::tt_pair_read(first, second) }
}

pub fn pair_write(code: u32) -> u64 {
    // SAFETY: a number only.
    unsafe { c::tt_pair_write(code) }
}

pub fn half_step(code: u32) -> u64 {
    // SAFETY: a number only.
    unsafe { c::tt_half_step(code) }
}

pub fn sap_read(file: &[u8]) -> u64 {
    // SAFETY: the slice is valid for reads of its length.
    unsafe { c::tt_sap_read(file.as_ptr(), file.len()) }
}

pub fn sap_fields(file: &[u8], out: &mut [u32]) -> u64 {
    // SAFETY: both slices are valid for their lengths and apart.
    unsafe { c::tt_sap_fields(file.as_ptr(), file.len(), out.as_mut_ptr(), out.len()) }
}

pub fn sap_load(file: &[u8], memory: &mut [u8]) -> u64 {
    // SAFETY: both slices are valid for their lengths and apart.
    unsafe { c::tt_sap_load(file.as_ptr(), file.len(), memory.as_mut_ptr(), memory.len()) }
}

pub fn sap_time(file: &[u8], song: u32) -> u64 {
    // SAFETY: the slice is valid for reads of its length.
    unsafe { c::tt_sap_time(file.as_ptr(), file.len(), song) }
}

pub fn sap_block(file: &[u8], n: u32, out: &mut [u32]) -> u64 {
    // SAFETY: both slices are valid for their lengths and apart.
    unsafe { c::tt_sap_block(file.as_ptr(), file.len(), n, out.as_mut_ptr(), out.len()) }
}
