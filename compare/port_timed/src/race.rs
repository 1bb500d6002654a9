//! How long calls take when they are run in turn.

use trials::clock::processor_time;

pub const ROUNDS: usize = 12;
/// What a turn takes at least, in nanoseconds: little, so that many are undisturbed.
const TURN: f64 = 600_000.0;

pub fn race<const RACERS: usize>(racers: [&mut dyn FnMut(); RACERS]) -> [f64; RACERS] {
    race_of(ROUNDS, racers)
}

/// A race of two, with a third where there is one.
pub fn race_beside(
    [one, other]: [&mut dyn FnMut(); 2],
    third: Option<&mut dyn FnMut()>,
) -> ([f64; 2], Option<f64>) {
    match third {
        None => (race([one, other]), None),
        Some(third) => {
            let [one, other, third] = race([one, other, third]);
            ([one, other], Some(third))
        }
    }
}

/// Nanoseconds per run of each racer, the least of all rounds and of the turn that finds
/// how often a racer runs. In a round every racer has its turn, so that all meet the same
/// weather.
pub fn race_of<const RACERS: usize>(
    rounds: usize,
    mut racers: [&mut dyn FnMut(); RACERS],
) -> [f64; RACERS] {
    let first = racers.each_mut().map(|racer| first_turn(*racer));
    let mut least = first.map(|(runs, turn)| turn / f64::from(runs));
    for _ in 0..rounds {
        for racer in 0..RACERS {
            let (runs, _) = first[racer];
            let turn = time(racers[racer], runs);
            least[racer] = least[racer].min(turn / f64::from(runs));
        }
    }
    least
}

/// How many runs a turn has, and how long they took.
fn first_turn(racer: &mut dyn FnMut()) -> (u32, f64) {
    let mut runs = 1;
    loop {
        let turn = time(racer, runs);
        if turn >= TURN {
            return (runs, turn);
        }
        runs *= 2;
    }
}

fn time(racer: &mut dyn FnMut(), runs: u32) -> f64 {
    let start = processor_time();
    for _ in 0..runs {
        racer();
    }
    processor_time() - start
}
