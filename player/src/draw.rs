//! A draw: what it covers, how it is combined and blended, and where it is cut.

use crate::{CombinerUniform, RenderMode};

/// A vertex. A draw of triangles is turned away with number 7 where x is not from -1024.0 to 1023.75, y not from -2048.0
/// to 2047.75, or a channel not finite.
#[derive(Clone, Copy, Debug, Default, PartialEq)]
pub struct Vertex {
    /// x and y in pixels, from the frame's upper left corner.
    pub position: [f32; 2],
    /// Red, green, blue and alpha, from 0.0 to 1.0.
    pub color: [f32; 4],
}

/// A list of vertices as the library reads it: six floats for each, and a presence flag. It is filled once and lent to
/// any number of draws, so that a draw copies nothing.
///
/// ```
/// use writeback::{Vertex, Vertices};
///
/// let mut vertices: Vertices = [Some(Vertex::default()), None].into_iter().collect();
/// vertices.push(Some(Vertex { position: [8.0, 2.5], color: [1.0; 4] }));
/// assert_eq!(vertices.len(), 3);
/// assert_eq!(vertices.present(), [1, 0, 1]);
/// ```
#[derive(Clone, Debug, Default, PartialEq)]
pub struct Vertices {
    floats: Vec<f32>,
    present: Vec<u8>,
}

impl Vertices {
    /// No vertices.
    pub const fn new() -> Vertices {
        Vertices { floats: Vec::new(), present: Vec::new() }
    }

    /// Any lists: x, y, red, green, blue and alpha for each vertex, and 1 for each that is there, 0 for each that is not. A
    /// draw whose lists do not fit together is turned away with number 5.
    pub fn from_parts(floats: Vec<f32>, present: Vec<u8>) -> Vertices {
        Vertices { floats, present }
    }

    /// Adds a vertex, or a number that names none.
    pub fn push(&mut self, vertex: Option<Vertex>) {
        let Vertex { position: [x, y], color: [r, g, b, a] } = vertex.unwrap_or_default();
        self.floats.extend([x, y, r, g, b, a]);
        self.present.push(u8::from(vertex.is_some()));
    }

    /// Removes all and keeps the memory.
    pub fn clear(&mut self) {
        self.floats.clear();
        self.present.clear();
    }

    /// How many presence flags there are.
    pub fn len(&self) -> usize {
        self.present.len()
    }

    /// Whether there is neither a float nor a flag.
    pub fn is_empty(&self) -> bool {
        self.floats.is_empty() && self.present.is_empty()
    }

    /// The floats, six for each vertex.
    pub fn floats(&self) -> &[f32] {
        &self.floats
    }

    /// The presence flags.
    pub fn present(&self) -> &[u8] {
        &self.present
    }

    /// The floats and the flags, to be changed in any way.
    pub fn parts_mut(&mut self) -> (&mut Vec<f32>, &mut Vec<u8>) {
        (&mut self.floats, &mut self.present)
    }

    /// The floats and the flags by themselves.
    pub fn into_parts(self) -> (Vec<f32>, Vec<u8>) {
        (self.floats, self.present)
    }
}

impl Extend<Option<Vertex>> for Vertices {
    fn extend<I: IntoIterator<Item = Option<Vertex>>>(&mut self, vertices: I) {
        vertices.into_iter().for_each(|vertex| self.push(vertex));
    }
}

impl Extend<Vertex> for Vertices {
    fn extend<I: IntoIterator<Item = Vertex>>(&mut self, vertices: I) {
        self.extend(vertices.into_iter().map(Some));
    }
}

impl FromIterator<Option<Vertex>> for Vertices {
    fn from_iter<I: IntoIterator<Item = Option<Vertex>>>(vertices: I) -> Vertices {
        let mut list = Vertices::new();
        list.extend(vertices);
        list
    }
}

impl FromIterator<Vertex> for Vertices {
    fn from_iter<I: IntoIterator<Item = Vertex>>(vertices: I) -> Vertices {
        vertices.into_iter().map(Some).collect()
    }
}

/// What a draw covers.
#[derive(Clone, Copy, Debug, Default, PartialEq)]
pub enum Geometry {
    /// Nothing that is known; the draw is turned away with number 7.
    #[default]
    Nothing,
    /// The triangles that the draw's indices name.
    Triangles,
    /// A rectangle, in pixels. Any floats will do; where a side is NaN it covers nothing.
    Rectangle {
        /// The first x that is covered.
        left: f32,
        /// The first y that is covered.
        top: f32,
        /// The first x that is covered no more.
        right: f32,
        /// The first y that is covered no more.
        bottom: f32,
    },
}

/// The part of the frame that a draw may change, in pixels. A number above 65,535 is turned away with number 4.
#[derive(Clone, Copy, Debug, PartialEq, Eq, Hash)]
pub struct Scissor {
    /// The first column.
    pub left: u32,
    /// The first row.
    pub top: u32,
    /// How many columns.
    pub width: u32,
    /// How many rows.
    pub height: u32,
}

impl Scissor {
    /// All of any frame.
    pub const ALL: Scissor = Scissor { left: 0, top: 0, width: 65_535, height: 65_535 };
}

/// All of any frame.
impl Default for Scissor {
    fn default() -> Scissor {
        Scissor::ALL
    }
}

/// Which engine finds the pixels of a draw. Both find the same pixels in the same order, so that no answer and no byte of a
/// frame turns on it.
///
/// A restorer who holds the library beside the console's papers reads the slow one, and draws with it to see that what was read is
/// what the fast one does. docs/RASTERISER.md of the repository walks through it on one triangle.
///
/// ```
/// use writeback::{Draw, Engine, Frame, Geometry, RenderMode, Vertex, Vertices};
///
/// let corner = |x, y| Vertex { position: [x, y], color: [1.0; 4] };
/// let vertices: Vertices = [corner(1.0, 0.5), corner(14.75, 4.0), corner(3.0, 11.0)].into_iter().collect();
/// let fast = Draw {
///     mode: RenderMode { antialias: true, ..RenderMode::default() },
///     geometry: Geometry::Triangles,
///     vertices: &vertices,
///     indices: &[0, 1, 2],
///     ..Draw::default()
/// };
/// let slow = Draw { engine: Engine::Slow, ..fast };
///
/// let mut frame = Frame::new(16, 12)?;
/// let mut other = frame.clone();
/// assert_eq!(frame.emitted_pixels(&fast), other.emitted_pixels(&slow));
/// assert_eq!(frame.draw(&fast), other.draw(&slow));
/// assert_eq!(frame, other);
/// # Ok::<(), writeback::Refusal>(())
/// ```
#[derive(Clone, Copy, Debug, Default, PartialEq, Eq, Hash)]
pub enum Engine {
    /// The one to draw with: it works out ahead which pixels of a row are hit.
    #[default]
    Fast,
    /// The one to read: for each triangle, or for the rectangle, it visits every pixel of the frame inside the scissor and tests
    /// its eight samples. So it takes triangles times the scissor's area times eight tests.
    Slow,
}

/// A draw. Every value of every field may be handed over: what the library does not draw it turns away with a number.
///
/// The lists are checked for any geometry (number 5), and read for triangles alone.
#[derive(Clone, Copy, Debug)]
pub struct Draw<'a> {
    /// The render mode.
    pub mode: RenderMode,
    /// The combiner's words and constants.
    pub uniform: CombinerUniform,
    /// Whether triangles are skipped whose corners (a, b, c) do not have (b - a) × (c - a) below 0.
    pub cull: bool,
    /// Where the draw is cut.
    pub scissor: Scissor,
    /// What is covered.
    pub geometry: Geometry,
    /// The vertices that the indices name.
    pub vertices: &'a Vertices,
    /// Three for each triangle.
    pub indices: &'a [u32],
    /// How the pixels are found. What is drawn does not turn on it.
    pub engine: Engine,
}

static NO_VERTICES: Vertices = Vertices::new();

/// Nothing, with default mode and uniform, not cut and not culled, by the fast engine.
impl Default for Draw<'_> {
    fn default() -> Self {
        Draw {
            mode: RenderMode::default(),
            uniform: CombinerUniform::default(),
            cull: false,
            scissor: Scissor::ALL,
            geometry: Geometry::Nothing,
            vertices: &NO_VERTICES,
            indices: &[],
            engine: Engine::Fast,
        }
    }
}
