//! The gasket pair: a flange of radius 1,000 and a bolt hole of radius 10 on its rim. `cargo run --example gasket`
use arcs::{checked, vect2d, Arc, Refusal};

fn search(words: &str, a: &Arc, b: &Arc, depth: u32) -> Result<(), Refusal> {
    let found = checked::intersect_arcs_at(a, b, depth)?;
    let c = found.counts;
    println!("{words}: {} crossings, {} brackets, {} points worked out", c.hits, c.brackets, c.evaluations);
    for h in found.hits {
        println!("    at ({:.6}, {:.6}), angles {:.9} and {:.9}", h.pos.x, h.pos.y, h.t_a, h.t_b);
    }
    Ok(())
}

fn main() -> Result<(), Refusal> {
    // The rim is marked as an ellipse, though its radii are equal; so it is searched, not solved.
    let flange = Arc::ellipse(vect2d::new(0.0, 0.0), 1000.0, 1000.0, 0.0);
    let hole = Arc::circle(vect2d::new(999.9247, 12.2715), 10.0);
    search("flange first, 256 cells", &flange, &hole, 0)?;
    search("flange first, 512 cells", &flange, &hole, 1)?;
    search("hole first, 256 cells", &hole, &flange, 0)
}
