//! Readers and a writer of greymaps, and mosaics taken apart and put together, in C, which `peer.c`
//! has. Each gives a status back.

use port::Frame;

unsafe extern "C" {
    fn peer_scan(file: *const u8, image: *mut [usize; 4]) -> u32;
    fn peer_scan_bytes(file: *const u8, file_length: usize, image: *mut [usize; 4]) -> u32;
    fn peer_scan_stack(
        file: *const u8,
        count: usize,
        widths: *mut usize,
        heights: *mut usize,
        samples: *mut u8,
        next: *mut usize,
    ) -> u32;
    fn peer_print(
        samples: *const u8,
        width: usize,
        height: usize,
        file: *mut u8,
        file_length: usize,
        length: *mut usize,
    ) -> u32;
    fn peer_take_apart(mosaic: *const u8, width: usize, height: usize, planes: *mut u8);
    fn peer_put_together(planes: *const u8, width: usize, height: usize, mosaic: *mut u8);
}

/// The image at the front of a file whose first sample is 0, by sscanf: width, height, where
/// the samples start, and the place behind them.
pub fn scan(file: &[u8], image: &mut [usize; 4]) -> u32 {
    unsafe { peer_scan(file.as_ptr(), image) }
}

/// The same by a loop over the bytes of the header.
pub fn scan_bytes(file: &[u8], image: &mut [usize; 4]) -> u32 {
    unsafe { peer_scan_bytes(file.as_ptr(), file.len(), image) }
}

/// As many images, one behind another, as each list of sides is long, by sscanf and memcpy.
/// Their samples just fill the list.
pub fn scan_stack<const COUNT: usize>(
    file: &[u8],
    [widths, heights]: [&mut [usize; COUNT]; 2],
    samples: &mut [u8],
    next: &mut usize,
) -> u32 {
    unsafe {
        peer_scan_stack(
            file.as_ptr(),
            COUNT,
            widths.as_mut_ptr(),
            heights.as_mut_ptr(),
            samples.as_mut_ptr(),
            next,
        )
    }
}

/// A frame as a file, by sprintf and memcpy.
pub fn print(frame: Frame, file: &mut [u8], length: &mut usize) -> u32 {
    unsafe {
        peer_print(
            frame.samples.as_ptr(),
            frame.width,
            frame.height,
            file.as_mut_ptr(),
            file.len(),
            length,
        )
    }
}

/// The planes of a mosaic, pixel by pixel. Both lists are as long as the size says.
pub fn take_apart(mosaic: &[u8], width: usize, height: usize, planes: &mut [u8]) -> u32 {
    unsafe { peer_take_apart(mosaic.as_ptr(), width, height, planes.as_mut_ptr()) };
    0
}

/// The mosaic of planes, pixel by pixel. Both lists are as long as the size says.
pub fn put_together(planes: &[u8], width: usize, height: usize, mosaic: &mut [u8]) -> u32 {
    unsafe { peer_put_together(planes.as_ptr(), width, height, mosaic.as_mut_ptr()) };
    0
}
