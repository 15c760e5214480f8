//! Inverts the map (x1 + 2 x2, x2 + 3 x1^2) to order 3, prints the inverse, composes the two, and shows what a refusal
//! looks like.
use yigtrav::{Context, Refusal};

fn main() -> Result<(), Refusal> {
    let mut c = Context::new(3, 2)?;
    println!("order {}, variables {}, monomials {}", c.order(), c.variables(), c.count());
    let first = c.series(&[(&[1, 0], 1), (&[0, 1], 2)])?;
    let second = c.series(&[(&[0, 1], 1), (&[2, 0], 3)])?;
    let map = c.map(&[first, second])?;

    let inverse = c.invert(&map)?;
    for (k, component) in (1..).zip(inverse.components()) {
        for (e, coefficient) in c.terms(&component)? {
            println!("inverse {k}: exponents {} {}, coefficient {coefficient}", e[0], e[1]);
        }
    }

    for (k, component) in (1..).zip(c.compose(&map, &inverse)?.components()) {
        println!("map after inverse, component {k}: {} entry", component.entries());
    }

    let part = &inverse.components()[0];
    let (_, pairs) = c.product(part, part)?;
    println!("inverse 1 squared: {pairs} pairs");

    let zero = c.map(&[c.series(&[])?, c.series(&[])?])?;
    if let Err(refusal) = c.invert(&zero) {
        println!("zero map: number {}, place {}", refusal.number().unwrap_or(0), refusal.place());
        eprintln!("{refusal}");
    }
    Ok(())
}
