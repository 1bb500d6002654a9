//! Mosaics taken apart into four planes, and put together from them.

use crate::{Plane, Planes};

pub fn take_apart(mosaic: &[u8], width: usize, height: usize, planes: &mut [u8]) -> u32 {
    unsafe extern "C" {
        fn mtb_take_apart(
            mosaic: *const u8,
            mosaic_length: usize,
            width: usize,
            height: usize,
            planes: *mut u8,
            planes_length: usize,
        ) -> u32;
    }
    unsafe {
        mtb_take_apart(
            mosaic.as_ptr(),
            mosaic.len(),
            width,
            height,
            planes.as_mut_ptr(),
            planes.len(),
        )
    }
}

pub fn put_together(planes: &[u8], width: usize, height: usize, mosaic: &mut [u8]) -> u32 {
    unsafe extern "C" {
        fn mtb_put_together(
            planes: *const u8,
            planes_length: usize,
            width: usize,
            height: usize,
            mosaic: *mut u8,
            mosaic_length: usize,
        ) -> u32;
    }
    unsafe {
        mtb_put_together(
            planes.as_ptr(),
            planes.len(),
            width,
            height,
            mosaic.as_mut_ptr(),
            mosaic.len(),
        )
    }
}

/// `lists` get where each plane starts among the planes, their widths, and their heights.
pub fn planes(width: usize, height: usize, lists: [&mut [usize; 4]; 3]) -> u32 {
    unsafe extern "C" {
        fn mtb_planes(
            width: usize,
            height: usize,
            starts: *mut [usize; 4],
            widths: *mut [usize; 4],
            heights: *mut [usize; 4],
        ) -> u32;
    }
    let [starts, widths, heights] = lists;
    unsafe { mtb_planes(width, height, starts, widths, heights) }
}

/// The same by name, or the number of the refusal. `Plane::part` is a plane's part of the list
/// that is taken apart, in place.
pub fn layout(width: usize, height: usize) -> Result<Planes, u32> {
    let mut lists = [[0; 4]; 3];
    match planes(width, height, lists.each_mut()) {
        0 => Ok(by_name(lists)),
        refused => Err(refused),
    }
}

/// Starts, widths and heights as planes.
pub fn by_name([starts, widths, heights]: [[usize; 4]; 3]) -> Planes {
    Planes::from_order([0, 1, 2, 3].map(|plane: usize| Plane {
        start: starts[plane],
        width: widths[plane],
        height: heights[plane],
    }))
}
