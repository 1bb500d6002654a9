//! A window as a picture: a square a shift, dark where few pixels disagree, with the step and
//! the rivals marked.

use naive::report::Report;

use crate::asked::Asked;
use crate::letters::{ADVANCE, LINE, points};
use crate::people::{grouped, pair, verdict};
use crate::png::{Palette, png};
use crate::stepped::Stepped;
use crate::window::{Mark, Window};

/// The greys of a picture, from black on, and the colours behind them.
const GREYS: u8 = 248;
const WHITE: u8 = 248;
const BLACK: u8 = 249;
const GREEN: u8 = 250;
const RED: u8 = 251;
const BLUE: u8 = 252;

fn palette() -> Palette {
    let mut palette = [[0; 3]; 256];
    for grey in 0..GREYS {
        palette[usize::from(grey)] = [(u32::from(grey) * 255 / 247) as u8; 3];
    }
    for (colour, light) in [
        (WHITE, [255, 255, 255]),
        (BLACK, [0, 0, 0]),
        (GREEN, [0, 190, 60]),
        (RED, [235, 45, 45]),
        (BLUE, [96, 132, 190]),
    ] {
        palette[usize::from(colour)] = light;
    }
    palette
}

/// How large a point of a letter is, what lies around all, and how wide a window is meant
/// to be.
const POINT: usize = 2;
const EDGE: usize = 12;
const MEANT: usize = 580;
const SMALL: usize = 9;
const ROW: usize = LINE * POINT + 2;
/// Room on the left for the rows' numbers.
const NUMBERS: usize = 6 * ADVANCE * POINT;

struct Canvas {
    width: usize,
    pixels: Vec<u8>,
}

impl Canvas {
    fn new(width: usize, height: usize) -> Self {
        let pixels = vec![WHITE; width * height];
        Self { width, pixels }
    }

    fn fill(&mut self, (left, top): (usize, usize), (width, height): (usize, usize), colour: u8) {
        for y in top..top + height {
            self.pixels[y * self.width + left..][..width].fill(colour);
        }
    }

    /// The inner edge of a square.
    fn ring(&mut self, (left, top): (usize, usize), side: usize, thick: usize, colour: u8) {
        let far = side - thick;
        self.fill((left, top), (side, thick), colour);
        self.fill((left, top + far), (side, thick), colour);
        self.fill((left, top), (thick, side), colour);
        self.fill((left + far, top), (thick, side), colour);
    }

    fn write(&mut self, (left, top): (usize, usize), text: &str) {
        for (x, y) in points(text) {
            self.fill((left + POINT * x, top + POINT * y), (POINT, POINT), BLACK);
        }
    }
}

fn width_of(text: &str) -> usize {
    ADVANCE * POINT * text.len()
}

/// The file of a frame's picture.
pub fn of_frame(asked: &Asked, report: &Report, stepped: &Stepped) -> Vec<u8> {
    let window = Window::of(asked, stepped);
    let [disagreeing, compared] =
        [stepped.counts.disagreeing, stepped.counts.compared].map(grouped);
    let verdict = verdict(report.verdicts[stepped.frame]);
    let title = [
        format!("frame {} on frame {}: {verdict}", stepped.frame, stepped.on),
        format!(
            "step {}: {disagreeing} of {compared} disagree",
            pair(stepped.step)
        ),
    ];
    let [least, most] = window.least_and_most();
    let legend = [
        format!("{} to {} pixels disagree", grouped(least), grouped(most)),
        "the step, and the shifts next to it".to_string(),
        match stepped.rivals.len() {
            0 => "no rival".into(),
            1 => "1 rival".into(),
            more => format!("{} rivals", grouped(more as u64)),
        },
        format!(
            "fewer than {} pixels compared",
            grouped(asked.rivalry.floor.into())
        ),
    ];
    let canvas = drawn(&window, &title, &legend);
    png(canvas.width, &canvas.pixels, &palette())
}

/// How wide the legend's bar of greys is; what it says stands behind that and a gap.
const BAR: usize = 4 * ROW;
const BEHIND: usize = BAR + ROW;

fn drawn(window: &Window, title: &[String], legend: &[String; 4]) -> Canvas {
    let side = window.side();
    let cell = (MEANT / side).clamp(4, 40);
    let titles = title.iter().map(|line| width_of(line));
    let legends = legend.iter().map(|line| BEHIND + width_of(line));
    let inner = titles
        .chain(legends)
        .fold(NUMBERS + side * cell, usize::max);
    let top = 2 * EDGE + title.len() * ROW;
    let below = top + side * cell + ROW + EDGE;
    let mut canvas = Canvas::new(2 * EDGE + inner, below + legend.len() * ROW + EDGE);
    for (number, line) in title.iter().enumerate() {
        canvas.write((EDGE, EDGE + number * ROW), line);
    }
    let corner = (EDGE + NUMBERS, top);
    draw_window(&mut canvas, window, cell, corner);
    number_axes(&mut canvas, window, cell, corner);
    draw_legend(&mut canvas, legend, below);
    canvas
}

/// A square for each shift from this corner on, and what marks some.
fn draw_window(canvas: &mut Canvas, window: &Window, cell: usize, (left, top): (usize, usize)) {
    let side = window.side();
    let [least, most] = window.least_and_most();
    let grey = |disagreeing: u64| {
        let over = (disagreeing - least) * u64::from(GREYS - 1);
        over.checked_div(most - least).unwrap_or(0) as u8
    };
    let corner = |column: usize, row: usize| (left + column * cell, top + row * cell);
    let thick = (cell / 7).max(1);
    // What a ring would leave of a small square is not seen.
    let thick_of_rival = match cell {
        ..SMALL => cell.div_ceil(2),
        _ => thick,
    };
    for (at, seen) in window.shifts.iter().enumerate() {
        let colour = match seen.is_enough {
            true => grey(seen.counts.disagreeing),
            false => BLUE,
        };
        let place = corner(at % side, at / side);
        canvas.fill(place, (cell, cell), colour);
        if seen.mark == Mark::Rival {
            canvas.ring(place, cell, thick_of_rival, RED);
        }
    }
    let middle = side / 2;
    if middle > 0 {
        canvas.ring(corner(middle - 1, middle - 1), 3 * cell, 1, GREEN);
    }
    mark_step(canvas, corner(middle, middle), cell, thick);
}

/// What the greys and the marks mean, a line each: greys, step, rivals, blue.
fn draw_legend(canvas: &mut Canvas, legend: &[String; 4], top: usize) {
    let side = ROW - 6;
    let mark = |line: usize| (EDGE + BAR - side, top + line * ROW);
    for column in 0..BAR {
        let grey = column * usize::from(GREYS - 1) / (BAR - 1);
        canvas.fill((EDGE + column, top), (1, side), grey as u8);
    }
    mark_step(canvas, mark(1), side, 2);
    canvas.ring(mark(2), side, 2, RED);
    canvas.fill(mark(3), (side, side), BLUE);
    for (number, line) in legend.iter().enumerate() {
        canvas.write((EDGE + BEHIND, top + number * ROW + 1), line);
    }
}

/// A ring with a dot in it.
fn mark_step(canvas: &mut Canvas, (left, top): (usize, usize), side: usize, thick: usize) {
    canvas.ring((left, top), side, thick, GREEN);
    let dot = side / 3;
    let inset = (side - dot) / 2;
    canvas.fill((left + inset, top + inset), (dot, dot), GREEN);
}

/// The coordinates below the columns and left of the rows, as many as there is room for.
fn number_axes(canvas: &mut Canvas, window: &Window, cell: usize, (left, top): (usize, usize)) {
    let side = window.side();
    let longest =
        [window.step.x, window.step.y].map(|at| (at.abs() + window.reach).to_string().len() + 2);
    let room = longest[0].max(longest[1]) * ADVANCE * POINT;
    let every = [1, 2, 5, 10, 20, 50]
        .into_iter()
        .find(|every| every * cell >= room);
    let every = every.unwrap_or(100) as i32;
    let letter = LINE * POINT - 6;
    for at in 0..side {
        let off = at as i32 - window.reach;
        let [x, y] = [window.step.x + off, window.step.y + off];
        if x % every == 0 {
            let text = x.to_string();
            let middle = left + at * cell + cell / 2;
            let last = canvas.width - width_of(&text);
            let start = middle.saturating_sub(width_of(&text) / 2).min(last);
            canvas.fill((middle, top + side * cell), (1, 4), BLACK);
            canvas.write((start, top + side * cell + 6), &text);
        }
        if y % every == 0 {
            let text = y.to_string();
            let middle = top + at * cell + cell / 2;
            canvas.fill((left - 4, middle), (4, 1), BLACK);
            let start = left - 8 - width_of(&text);
            canvas.write((start, middle - letter / 2), &text);
        }
    }
}

#[cfg(test)]
mod tests {
    use naive::difference::Counts;
    use port::Shift;

    use super::*;
    use crate::window::Seen;
    use crate::window::tests::example;

    /// The corner and the inside of each square.
    #[test]
    fn squares_are_dark_where_few_disagree_and_marked() {
        example(|asked, _, stepped| {
            let window = Window::of(asked, stepped);
            let canvas = plainly_drawn(&window);
            let (left, top, cell) = (EDGE + NUMBERS, 2 * EDGE + 2 * ROW, MEANT / 19);
            let pixel = |x: usize, y: usize| canvas.pixels[y * canvas.width + x];
            let [least, most] = window.least_and_most();
            for (at, seen) in window.shifts.iter().enumerate() {
                let (x, y) = (left + at % 19 * cell, top + at / 19 * cell);
                let (corner, middle) = (pixel(x, y), pixel(x + cell / 2, y + cell / 2));
                let over = seen.counts.disagreeing.saturating_sub(least);
                let inside = match seen.is_enough {
                    true => (over as f64 / (most - least) as f64 * 247.0) as u8,
                    false => BLUE,
                };
                match seen.mark {
                    Mark::Step => assert_eq!([corner, middle], [GREEN; 2]),
                    Mark::Rival => assert_eq!([corner, middle], [RED, inside]),
                    Mark::None => assert!(middle == inside && [inside, GREEN].contains(&corner)),
                }
            }
        });
    }

    fn plainly_drawn(window: &Window) -> Canvas {
        let texts = [(); 4].map(|()| String::new());
        drawn(window, &texts[..2], &texts)
    }

    /// One dark square amid blue ones would look like a match.
    #[test]
    fn a_step_that_compares_too_little_is_blue_inside_its_mark() {
        example(|asked, _, stepped| {
            let mut asked = *asked;
            asked.rivalry.floor = u32::MAX;
            let window = Window::of(&asked, stepped);
            assert_eq!(window.least_and_most(), [0, 0]);
            let canvas = plainly_drawn(&window);
            let (cell, at) = (MEANT / 19, 9);
            let (x, y) = (EDGE + NUMBERS + at * cell, 2 * EDGE + 2 * ROW + at * cell);
            let inside = cell / 7 + 1; // behind the ring, before the dot
            assert_eq!(
                canvas.pixels[(y + inside) * canvas.width + x + inside],
                BLUE
            );
        });
    }

    /// At steps where the last column has a number, it ends at the edge and does not go on at
    /// the other one, where nothing stands.
    #[test]
    fn numbers_stay_within_the_picture() {
        let shifts = |side: usize| {
            (0..side * side).map(|_| Seen {
                counts: Counts {
                    disagreeing: 0,
                    compared: 1,
                },
                is_enough: true,
                mark: Mark::None,
            })
        };
        for x in [-8_191, -36, 0, 36, 8_191] {
            let window = Window {
                step: Shift::new(x, -x),
                reach: 64,
                shifts: shifts(129).collect(),
            };
            let canvas = plainly_drawn(&window);
            let rows = canvas.pixels.chunks(canvas.width);
            let at_left = rows.map(|row| row[..EDGE / 2].to_vec()).collect::<Vec<_>>();
            assert!(
                at_left.concat().iter().all(|pixel| *pixel == WHITE),
                "step {x}"
            );
        }
    }
}
