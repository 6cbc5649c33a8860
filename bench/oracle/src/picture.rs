//! The picture: the label's drawings as rows of dots, highest bit first, black 1.

use crate::label::{Drawing, Label, Shape};

pub const ROWS: usize = 400;
pub const ROW_BYTES: usize = 54;
pub const COLUMNS: usize = 8 * ROW_BYTES;
pub const BYTES: usize = ROWS * ROW_BYTES;

/// The dot at so many tenths of a millimetre.
pub fn dot(tenths: u16) -> usize {
    8 * usize::from(tenths) / 10
}

/// The dots between two corners, both included.
struct Bounds {
    left: usize,
    right: usize,
    top: usize,
    bottom: usize,
}

impl Bounds {
    fn new([(x0, y0), (x1, y1)]: [(u16, u16); 2]) -> Bounds {
        Bounds {
            left: dot(x0.min(x1)),
            right: dot(x0.max(x1)),
            top: dot(y0.min(y1)),
            bottom: dot(y0.max(y1)),
        }
    }

    /// Is this dot, which lies inside, fewer than `thickness` dots from a side?
    fn near_side(&self, x: usize, y: usize, thickness: usize) -> bool {
        x - self.left < thickness
            || self.right - x < thickness
            || y - self.top < thickness
            || self.bottom - y < thickness
    }
}

struct Canvas<'a> {
    dots: &'a mut [u8],
    columns: usize,
    rows: usize,
}

impl Canvas<'_> {
    /// Changes every dot of the bounds that the label has and `covers` wants.
    fn change(&mut self, bounds: &Bounds, covers: impl Fn(usize, usize) -> bool, how: impl Fn(&mut u8, u8)) {
        for y in bounds.top..=bounds.bottom.min(self.rows - 1) {
            for x in bounds.left..=bounds.right.min(self.columns - 1) {
                if covers(x, y) {
                    how(&mut self.dots[y * ROW_BYTES + x / 8], 0x80 >> (x % 8));
                }
            }
        }
    }

    fn add(&mut self, drawing: &Drawing) {
        let mut bounds = Bounds::new(drawing.corners);
        let everywhere = |_, _| true;
        let blacken = |byte: &mut u8, bit: u8| *byte |= bit;
        match drawing.shape {
            Shape::Line(thickness) => {
                let [(_, y0), (_, y1)] = drawing.corners;
                if y0 == y1 {
                    bounds.bottom += thickness - 1;
                } else {
                    bounds.right += thickness - 1;
                }
                self.change(&bounds, everywhere, blacken);
            }
            Shape::Rectangle(thickness) => {
                self.change(&bounds, |x, y| bounds.near_side(x, y, thickness), blacken);
            }
            Shape::Clear => self.change(&bounds, everywhere, |byte, bit| *byte &= !bit),
            Shape::Invert => self.change(&bounds, everywhere, |byte, bit| *byte ^= bit),
        }
    }
}

/// Draws the label; dots outside its width and length are white.
pub fn draw(label: &Label, dots: &mut [u8]) {
    dots.fill(0);
    let columns = dot(label.sizes.width).min(COLUMNS);
    let rows = dot(label.sizes.length).min(ROWS);
    let mut canvas = Canvas { dots, columns, rows };
    for drawing in &label.drawings {
        canvas.add(drawing);
    }
}
