//! The calls on shifts, moved frames and crops.

use naive::geometry::{self, Crop, Shift};
use naive::gray::Frame;
use port::moves as port;
use trials::Outcome;
use trials::inputs::{Random, any_shift, doubling, shift_list};
use trials::original;

use crate::agreed;
use crate::claims::Claim;
use crate::lent::Lent;

/// What a call that moves a shift has written.
fn written(input: &str, status: u32, [x, y]: [&Lent<i32>; 2]) -> Result<Shift, String> {
    let (x, y) = (x.after(input, status)?, y.after(input, status)?);
    Ok(Shift::new(x[0], y[0]))
}

pub fn doubled(random: &mut Random, _: usize) -> Outcome {
    let shift = Shift::new(doubling(random), doubling(random));
    let [mut x, mut y] = [(); 2].map(|()| Lent::room(random, 1));
    let input = format!("{shift:?}");

    let status = port::doubled(shift, x.one_mut(), y.one_mut());
    agreed(
        &input,
        (status, written(&input, status, [&x, &y])?),
        shift.doubled(),
        Some(|| original::doubled(shift)),
    )
}

pub fn offset(random: &mut Random, _: usize) -> Outcome {
    let shift = Shift::new(doubling(random), doubling(random));
    let (right, down) = (doubling(random), doubling(random));
    let [mut x, mut y] = [(); 2].map(|()| Lent::room(random, 1));
    let input = format!("{shift:?} by ({right}, {down})");

    let status = port::offset(shift, right, down, x.one_mut(), y.one_mut());
    agreed(
        &input,
        (status, written(&input, status, [&x, &y])?),
        shift.offset(right, down),
        Some(|| original::offset(shift, right, down)),
    )
}

pub fn shifted(random: &mut Random, case: usize) -> Outcome {
    let claim = Claim::any(random, case, 24);
    let samples = claim.samples(random);
    let shift = any_shift(random, claim.made);
    let mut out = claim.room(random, claim.area());
    let input = format!("{claim}, samples {samples}, {shift:?}, moved {out}");

    let frame = Frame::new(samples.list(), claim.width, claim.height);
    let status = port::shifted(frame, shift, out.list_mut());
    samples.is_kept(&input)?;
    agreed(
        &input,
        (status, out.after(&input, status)?),
        geometry::shifted(frame, shift, out.list().len()),
        Some(|| original::shifted(frame, shift)),
    )
}

pub fn common_crop(random: &mut Random, case: usize) -> Outcome {
    let claim = Claim::any(random, case, 24);
    let shifts = shift_list(random, claim.made);
    let shifts = claim.list(random, shifts);
    let mut out = [(); 4].map(|()| Lent::room(random, 1));
    let input = format!("{claim}, shifts {shifts}");

    let (list, width, height) = (shifts.list(), claim.width, claim.height);
    let slots = out.each_mut().map(|slot| slot.one_mut());
    let status = port::common_crop(list, width, height, slots);
    shifts.is_kept(&input)?;
    let [left, top, wide, high] = out.each_ref().map(|slot| slot.after(&input, status));
    let written = Crop {
        x: left?[0] as u64,
        y: top?[0] as u64,
        width: wide?[0] as u64,
        height: high?[0] as u64,
    };
    agreed(
        &input,
        (status, written),
        geometry::common_crop(list, width, height),
        Some(|| original::common_crop(list, width, height)),
    )
}
