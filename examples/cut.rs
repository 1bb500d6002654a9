//! The cut of four samples: rustc cut.rs -L FOLDER -l static=mtb_c
unsafe extern "C" {
    fn mtb_threshold(
        samples: *const u8,
        samples_length: usize,
        width: usize,
        height: usize,
        percentile: u8,
        cut: *mut u16,
    ) -> u32;
}

fn main() {
    let samples = [0u8, 10, 20, 30];
    let mut cut = 0u16;
    match unsafe { mtb_threshold(samples.as_ptr(), samples.len(), 4, 1, 50, &mut cut) } {
        0 => println!("cut {cut}"),
        number => println!("refused {number}"),
    }
}
