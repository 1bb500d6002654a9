//! Every short run of telling bytes between `P5` and one tail, on several threads at the
//! same time: the port answers as the naive reading does.

use std::thread;

use naive::pgm::read;
use port::files::read_pgm;
use trials::Outcome;

use super::Slots;

const BYTES: [u8; 6] = *b" \n#25x";
const MOST: u32 = 9;
/// Lines that end a header begun before them, after a comment too, and are samples behind one.
const TAIL: &[u8; 30] = b"\n5 2 255\n2 5 255\n#x\n25 5 52\n\r\t";
/// What stands around a file and stays: it would go on as a number or as samples.
const AROUND: &[u8; 7] = b"2 255\n2";
const THREADS: usize = 4;

/// As many as there are runs of up to nine bytes.
pub const COUNT: usize = (BYTES.len().pow(MOST + 1) - 1) / (BYTES.len() - 1);

/// Says that all agreed.
pub fn run() -> Outcome {
    let parts = thread::scope(|scope| {
        let started: Vec<_> = (0..THREADS)
            .map(|first| scope.spawn(move || every_fourth(first)))
            .collect();
        started
            .into_iter()
            .map(|part| part.join().expect("no panic"))
            .collect::<Result<Vec<usize>, String>>()
    })?;
    let tried: usize = parts.iter().sum();
    if tried != COUNT {
        return Err(format!("{tried} of {COUNT} short headers tried"));
    }
    println!("{COUNT} short headers on {THREADS} threads at the same time, as the naive reading");
    Ok(())
}

/// Of the runs of each length, those whose number leaves `first`; answers how many.
fn every_fourth(first: usize) -> Result<usize, String> {
    let mut tried = 0;
    for length in 0..=MOST as usize {
        let mut all = [AROUND, &b"P5"[..], &vec![0; length], TAIL, AROUND].concat();
        let mut before = all.clone();
        let (lent, run) = (AROUND.len()..all.len() - AROUND.len(), AROUND.len() + 2);
        for number in (first..BYTES.len().pow(length as u32)).step_by(THREADS) {
            let mut rest = number;
            for byte in &mut before[run..run + length] {
                *byte = BYTES[rest % BYTES.len()];
                rest /= BYTES.len();
            }
            all.copy_from_slice(&before);
            agrees(&all[lent.clone()], number)?;
            if all != before {
                return Err(format!("{} has changed", before.escape_ascii()));
            }
            tried += 1;
        }
    }
    Ok(tried)
}

fn agrees(file: &[u8], number: usize) -> Outcome {
    let mut slots = Slots::new(number as u64);
    let status = read_pgm(file, 0, slots.lent());
    let told = |wrong: String| format!("{}: {wrong}", file.escape_ascii());
    let image = slots.after(status).map_err(told)?;
    match read(file, 0) {
        Ok(naive) if (status, image) == (0, naive) => Ok(()),
        Err(naive) if status == naive.number => Ok(()),
        naive => Err(told(format!("port {status}, {image:?}, naive {naive:?}"))),
    }
}
