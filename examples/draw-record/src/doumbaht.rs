//! The functions of the proved library that are used here (include/doumbaht.h).

extern "C" {
    fn doumbaht_happy_set(reports: *const u16, reports_count: usize) -> u16;
    fn doumbaht_text(bytes: *const u8, bytes_count: usize, out: *mut u8, out_count: usize) -> usize;
}

/// The happy set by the reports, bit i-1 for lamp i.
pub fn happy_set(reports: &[u16]) -> u16 {
    // SAFETY: the pointer and the count are those of one slice.
    unsafe { doumbaht_happy_set(reports.as_ptr(), reports.len()) }
}

/// The text of a record, or of any bytes.
pub fn text(bytes: &[u8]) -> String {
    let mut out = [0u8; 512];
    // SAFETY: each pointer and count are those of one slice, and the two are apart.
    let length = unsafe { doumbaht_text(bytes.as_ptr(), bytes.len(), out.as_mut_ptr(), out.len()) };
    String::from_utf8_lossy(&out[..length]).into_owned()
}
