//! A page as a player draws it: a frame, a shaded triangle and the samples of its edges, a draw that is turned away, and the words
//! that the game reads back.
//!
//!     cargo run --offline --example page

use writeback::{
    AlphaIn, ColorIn, CombinerUniform, CycleSel, Draw, Frame, Geometry, Refusal, RenderMode, Vertex, Vertices, Writer,
};

fn main() -> Result<(), Refusal> {
    let mut frame = Frame::new(32, 16)?;

    // The combiner gives the shade, and full alpha.
    let shade = CycleSel::only(ColorIn::Shade, AlphaIn::One);
    let uniform = CombinerUniform::default().with_inputs(shade).expect("slot D can name the shade");
    let corner = |x, y, r, g, b| Vertex { position: [x, y], color: [r, g, b, 1.0] };
    let vertices: Vertices =
        [corner(2.0, 1.0, 1.0, 0.0, 0.0), corner(30.0, 3.0, 0.0, 1.0, 0.0), corner(6.0, 15.0, 0.0, 0.0, 1.0)]
            .into_iter()
            .collect();
    let draw = Draw {
        // Coverages become full, and known.
        mode: RenderMode { cvg_dst: 2, ..RenderMode::default() },
        uniform,
        geometry: Geometry::Triangles,
        vertices: &vertices,
        indices: &[0, 1, 2],
        ..Draw::default()
    };
    println!("{} pixels", frame.draw(&draw)?);

    // Along its edges a triangle hits some of a pixel's eight samples: outlines are made smooth from them.
    for edge in frame.emitted_pixels(&draw)?.iter().filter(|emitted| emitted.count() < 8).take(3) {
        println!("pixel {}: samples at {:?} eighths", edge.pixel, edge.samples().collect::<Vec<_>>());
    }

    // There is no vertex 3. The line is what a log should have.
    if let Err(refusal) = frame.draw(&Draw { indices: &[0, 1, 3], ..draw }) {
        println!("{refusal}");
    }

    // All words in one call; dashes where nobody knows what the game would find.
    for row in frame.snapshot(&Writer::RGBA16).chunks(32) {
        let word = |answer: &Result<[u8; 2], Refusal>| match answer {
            Ok([a, b]) => format!("{a:02x}{b:02x}"),
            Err(_) => "----".into(),
        };
        println!("{}", row.iter().map(word).collect::<Vec<_>>().join(" "));
    }
    Ok(())
}
