//! The Sibson element in Bernstein–Bézier form, from the conditions in section 2 of NISTIR 6718.
//!
//! The diagonals cut a cell into four triangles, each an edge V0 V1 and the centre C.
//! A cubic on a triangle has ten ordinates, each named by three of the vertices, in any order.
//! They make a symmetric trilinear form B, the cubic's polar form, on barycentric weights:
//! the height at u is B(u, u, u), the slope along d is 3 B(u, u, d), the second derivative
//! along d and e is 6 B(u, d, e), where a direction is a difference of two points' weights.
//!
//! All is whole numbers. Places are doubled, so that C is whole. Ordinates are 48-fold: a slope's
//! share in one is a third of half a gap, the inner one takes quarters of sums of those, and C's
//! is the mean of the four inner ones.
//!
//! Sizes, for heights to 4,095 · 64 grains, slopes to 4,095 and gaps to 64: an ordinate beside a
//! corner is below 349,441 and an inner one below 655,201, so 48-fold all are below 2^25.
//! A pixel's weights sum to 2 W H, at most 2^13, and those of a step of one pixel to below 2^10
//! in magnitude. So |B(u, u, u)| < 2^64, |6 · 64 B(u, d, e)| < 2^67, and the denominator
//! 48 (2 W H)^3 < 2^45: i128 holds everything with room to spare, and overflow is checked besides.

use crate::fraction::Fraction;

/// Ordinates are kept this many times too large.
const FOLD: i128 = 48;

/// Bend is counted in 1/64 grain.
const BEND_UNITS_PER_GRAIN: i128 = 64;

/// A pixel is two long in doubled places.
const PIXEL_RIGHT: [i128; 2] = [2, 0];
const PIXEL_DOWN: [i128; 2] = [0, 2];

/// Barycentric weights: of V0, V1 and C. Those of a direction sum to 0.
pub type Weights = [i128; 3];

/// Height in grains and both slopes in grains per pixel at a corner.
#[derive(Clone, Copy, Debug)]
pub struct Corner {
    pub height: i128,
    pub x_slope: i128,
    pub y_slope: i128,
}

/// A cell in pixels; its corners go round from left top: right top, right bottom, left bottom.
#[derive(Clone, Copy, Debug)]
pub struct Cell {
    pub width: i128,
    pub height: i128,
    pub corners: [Corner; 4],
}

/// One of the four cubics, on the triangle of its three vertices in doubled places.
#[derive(Clone, Copy, Debug)]
pub struct Piece {
    vertices: [[i128; 2]; 3],
    ordinates: [[[i128; 3]; 3]; 3],
}

/// The exact readings at a point.
#[derive(Clone, Copy, Debug)]
pub struct Exact {
    pub level: Fraction,
    pub tilt: [Fraction; 2],
    pub bend: [Fraction; 3],
}

impl Exact {
    /// Level, tilt x and y, bend xx, xy and yy.
    pub fn all(&self) -> [Fraction; 6] {
        let Exact { level, tilt: [x, y], bend: [xx, xy, yy] } = *self;
        [level, x, y, xx, xy, yy]
    }
}

impl Cell {
    /// The four pieces: top, right, bottom, left.
    pub fn pieces(&self) -> [Piece; 4] {
        let inner = [0, 1, 2, 3].map(|piece| self.inner_ordinate(piece));
        // Between two triangles that share V C lie opposite corners, with C midway between them:
        // the slopes agree along V C when each ordinate on it is the mean of the two beside it.
        let beside_centre =
            [0, 1, 2, 3].map(|corner| half(inner[(corner + 3) % 4] + inner[corner]));
        let at_centre = half(beside_centre[0] + beside_centre[2]);
        [0, 1, 2, 3].map(|piece| {
            let next = (piece + 1) % 4;
            let near_centre = [inner[piece], beside_centre[piece], beside_centre[next], at_centre];
            self.piece(piece, near_centre)
        })
    }

    fn piece(&self, piece: usize, near_centre: [i128; 4]) -> Piece {
        let (first, second) = (piece, (piece + 1) % 4);
        let [inner, beside_first, beside_second, at_centre] = near_centre;
        let vertices = [self.place(first), self.place(second), self.centre()];
        let ordinate = |names| match times_named(names) {
            [3, 0, 0] => FOLD * self.corners[first].height,
            [0, 3, 0] => FOLD * self.corners[second].height,
            [2, 1, 0] => self.ordinate_towards(first, vertices[1]),
            [1, 2, 0] => self.ordinate_towards(second, vertices[0]),
            [2, 0, 1] => self.ordinate_towards(first, vertices[2]),
            [0, 2, 1] => self.ordinate_towards(second, vertices[2]),
            [1, 1, 1] => inner,
            [1, 0, 2] => beside_first,
            [0, 1, 2] => beside_second,
            _ => at_centre,
        };
        let ordinates =
            [0, 1, 2].map(|p| [0, 1, 2].map(|q| [0, 1, 2].map(|r| ordinate([p, q, r]))));
        Piece { vertices, ordinates }
    }

    /// A corner's place, doubled.
    fn place(&self, corner: usize) -> [i128; 2] {
        let (right, bottom) = (2 * self.width, 2 * self.height);
        [[0, 0], [right, 0], [right, bottom], [0, bottom]][corner]
    }

    /// The centre's place, doubled.
    fn centre(&self) -> [i128; 2] {
        [self.width, self.height]
    }

    /// The ordinate next to a corner: its height and a third of the rise from it towards a place.
    fn ordinate_towards(&self, corner: usize, place: [i128; 2]) -> i128 {
        let Corner { height, x_slope, y_slope } = self.corners[corner];
        let [x, y] = self.place(corner);
        FOLD * height + FOLD / 6 * ((place[0] - x) * x_slope + (place[1] - y) * y_slope)
    }

    /// The ordinate named by all three vertices of a piece.
    ///
    /// Across the edge runs the direction from its middle to C, with weights (−1/2, −1/2, 1).
    /// The slope along it, on the edge, is three times the quadratic with the ordinates
    /// q00 = b00C − (b000 + b001)/2,
    /// q01 = b01C − (b001 + b011)/2,
    /// q11 = b11C − (b011 + b111)/2.
    /// It has no square term when q00 − 2 q01 + q11 = 0. So
    /// 4 b01C = 2 b00C + 2 b11C + b001 + b011 − b000 − b111.
    fn inner_ordinate(&self, piece: usize) -> i128 {
        let (first, second) = (piece, (piece + 1) % 4);
        let towards_centre = self.ordinate_towards(first, self.centre())
            + self.ordinate_towards(second, self.centre());
        let along_edge = self.ordinate_towards(first, self.place(second))
            + self.ordinate_towards(second, self.place(first));
        let heights = FOLD * (self.corners[first].height + self.corners[second].height);
        half(half(2 * towards_centre + along_edge - heights))
    }
}

impl Piece {
    /// The weights of a doubled place: the areas of the triangles it makes with two vertices.
    pub fn weights(&self, place: [i128; 2]) -> Weights {
        let [to_first, to_second, to_centre] =
            self.vertices.map(|vertex| difference(vertex, place));
        [cross(to_second, to_centre), cross(to_centre, to_first), cross(to_first, to_second)]
    }

    /// The weights of one pixel to the right and of one pixel down.
    pub fn pixel_directions(&self) -> [Weights; 2] {
        let origin = self.weights([0, 0]);
        [PIXEL_RIGHT, PIXEL_DOWN].map(|place| {
            let moved = self.weights(place);
            [0, 1, 2].map(|v| moved[v] - origin[v])
        })
    }

    /// What all readings are exactly at the point of these weights, whatever they sum to.
    pub fn at(&self, point: Weights) -> Exact {
        let [right, down] = self.pixel_directions();
        let quadratic = self.ordinates.map(|square| square.map(|row| dot(row, point)));
        let along = |direction| quadratic.map(|row| dot(row, direction));
        let [linear, linear_right, linear_down] = [along(point), along(right), along(down)];
        let total = |weights: Weights| weights.iter().sum::<i128>();
        // The weights of a pixel's step are in units of the whole area.
        let (sum, area) = (total(point), total(self.weights([0, 0])));
        let slope = |direction| Fraction::new(3 * dot(linear, direction), FOLD * sum * sum * area);
        let second = |linear, direction| {
            let derivative = 6 * BEND_UNITS_PER_GRAIN * dot(linear, direction);
            Fraction::new(derivative, FOLD * sum * area * area)
        };
        Exact {
            level: Fraction::new(dot(linear, point), FOLD * sum * sum * sum),
            tilt: [slope(right), slope(down)],
            bend: [
                second(linear_right, right),
                second(linear_right, down),
                second(linear_down, down),
            ],
        }
    }
}

/// What all readings are exactly at a pixel of the cell, counted from its left top, from each piece
/// whose triangle holds it, edges and corners included.
pub fn from_each(pieces: &[Piece; 4], right: u32, down: u32) -> impl Iterator<Item = Exact> + '_ {
    let place = [2 * i128::from(right), 2 * i128::from(down)];
    let holds = move |piece: &&Piece| piece.weights(place).iter().all(|&weight| weight >= 0);
    pieces.iter().filter(holds).map(move |piece| piece.at(piece.weights(place)))
}

/// The same from the first piece that holds it: on a diagonal, the one of the lowest number.
pub fn at_pixel(pieces: &[Piece; 4], right: u32, down: u32) -> Exact {
    from_each(pieces, right, down).next().expect("the pieces cover the cell")
}

/// How often each vertex is named.
fn times_named(names: [usize; 3]) -> [usize; 3] {
    [0, 1, 2].map(|vertex| names.iter().filter(|&&name| name == vertex).count())
}

fn half(number: i128) -> i128 {
    assert!(number % 2 == 0);
    number / 2
}

fn difference(to: [i128; 2], from: [i128; 2]) -> [i128; 2] {
    [to[0] - from[0], to[1] - from[1]]
}

/// Twice the area of the triangle that two steps from a point span; the vertices' order keeps it
/// from falling below 0 for a point inside.
fn cross(first: [i128; 2], second: [i128; 2]) -> i128 {
    first[0] * second[1] - first[1] * second[0]
}

fn dot(ordinates: [i128; 3], weights: Weights) -> i128 {
    ordinates[0] * weights[0] + ordinates[1] * weights[1] + ordinates[2] * weights[2]
}
