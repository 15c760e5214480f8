//! The samples of the rules through the wrapper, and bad use: every mistake must come back as a refusal.
use yigtrav::{words, Context, Map, Refusal, Series};

type Done = Result<(), Refusal>;

/// Terms of a series of one and of two variables.
fn terms1(c: &Context, s: &Series) -> Vec<(u32, u32)> {
    c.terms(s).unwrap().into_iter().map(|(e, x)| (e[0], x)).collect()
}

fn terms2(c: &Context, s: &Series) -> Vec<(u32, u32, u32)> {
    c.terms(s).unwrap().into_iter().map(|(e, x)| (e[0], e[1], x)).collect()
}

fn series1(c: &Context, terms: &[(u32, u32)]) -> Series {
    let terms: Vec<([u32; 1], u32)> = terms.iter().map(|&(i, x)| ([i], x)).collect();
    let borrowed: Vec<(&[u32], u32)> = terms.iter().map(|(e, x)| (&e[..], *x)).collect();
    c.series(&borrowed).unwrap()
}

fn series2(c: &Context, terms: &[(u32, u32, u32)]) -> Series {
    let terms: Vec<([u32; 2], u32)> = terms.iter().map(|&(i, j, x)| ([i, j], x)).collect();
    let borrowed: Vec<(&[u32], u32)> = terms.iter().map(|(e, x)| (&e[..], *x)).collect();
    c.series(&borrowed).unwrap()
}

fn map2(c: &Context, first: &[(u32, u32, u32)], second: &[(u32, u32, u32)]) -> Map {
    c.map(&[series2(c, first), series2(c, second)]).unwrap()
}

// ---- the samples ----

#[test]
fn positions() -> Done {
    assert_eq!(Context::new(2, 2)?.position(&[1, 1])?, 5);
    let c = Context::new(2, 4)?;
    assert_eq!(c.position(&[1, 1, 0, 0])?, 5);
    assert_eq!(c.position(&[0, 2, 0, 0])?, 6);
    assert_eq!(c.position(&[0, 0, 1, 0])?, 7);
    for position in 1..=c.count() as u32 {
        assert_eq!(c.position(&c.exponents(position)?)?, position);
    }
    Ok(())
}

#[test]
fn tables() -> Done {
    let mut table = [0; 48];
    words::build_table(2, 4, &mut table)?;
    assert_eq!(table[30..39], [1, 2, 4, 3, 5, 0, 6, 0, 0]);
    assert_eq!(table[39..48], [0, 6, 9, 10, 13, 0, 14, 0, 0]);
    assert_eq!(Context::new(10, 6)?.count(), 8008);
    assert_eq!((words::count(8, 7), words::count(7, 8)), (Some(6435), Some(6435)));
    assert_eq!(Context::new(10, 7).err(), Some(Refusal::SettingOutOfRange));
    Ok(())
}

#[test]
fn products() -> Done {
    let mut c = Context::new(2, 1)?;
    let (a, b) = (series1(&c, &[(0, 1), (1, 1)]), series1(&c, &[(0, 1), (1, 65520)]));
    let (square, pairs) = c.product(&a, &a)?;
    assert_eq!((terms1(&c, &square), pairs), (vec![(0, 1), (1, 2), (2, 1)], 4));
    let (cancelled, _) = c.product(&a, &b)?;
    assert_eq!(terms1(&c, &cancelled), [(0, 1), (2, 65520)]);
    assert_eq!(cancelled.words(), [2, 65537, 3 * 65536 + 65520, 0]);

    let mut c = Context::new(1, 1)?;
    let (a, x) = (series1(&c, &[(0, 1), (1, 1)]), series1(&c, &[(1, 1)]));
    let (square, pairs) = c.product(&a, &a)?;
    assert_eq!((terms1(&c, &square), pairs), (vec![(0, 1), (1, 2)], 3));
    let (zero, pairs) = c.product(&x, &x)?;
    assert_eq!((zero.entries(), pairs), (0, 0));
    Ok(())
}

#[test]
fn sums() -> Done {
    let c = Context::new(2, 1)?;
    let (a, b) = (series1(&c, &[(0, 1), (1, 1)]), series1(&c, &[(0, 1), (1, 65520)]));
    assert_eq!(terms1(&c, &c.sum(&a, &b)?), [(0, 2)]);
    assert_eq!(terms1(&c, &c.difference(&a, &b)?), [(1, 2)]);
    assert_eq!(terms1(&c, &c.multiple(65520, &a)?), [(0, 65520), (1, 65520)]);
    assert_eq!(c.multiple(0, &a)?.entries(), 0);
    Ok(())
}

#[test]
fn derivative_bracket_substitution() -> Done {
    let mut c = Context::new(2, 2)?;
    let (a, b) = (series2(&c, &[(2, 0, 1)]), series2(&c, &[(0, 2, 1)]));
    assert_eq!(terms2(&c, &c.derivative(1, &a)?), [(1, 0, 2)]);
    let bracket = c.bracket(&a, &b)?;
    assert_eq!(terms2(&c, &bracket), [(1, 1, 4)]);
    let map = map2(&c, &[(1, 0, 1), (0, 1, 1)], &[(0, 1, 1)]);
    let substituted = c.substitute(&a, &map)?;
    assert_eq!(terms2(&c, &substituted), [(2, 0, 1), (1, 1, 2), (0, 2, 1)]);
    Ok(())
}

#[test]
fn inversions() -> Done {
    let mut c = Context::new(2, 1)?;
    let f = c.map(&[series1(&c, &[(1, 2), (2, 3)])])?;
    let g = c.invert(&f)?;
    assert_eq!(terms1(&c, &g.components()[0]), [(1, 32761), (2, 24570)]);

    let mut c = Context::new(2, 2)?;
    let f = map2(&c, &[(1, 0, 1), (0, 2, 1)], &[(0, 1, 1)]);
    let g = c.invert(&f)?;
    assert_eq!(g, map2(&c, &[(1, 0, 1), (0, 2, 65520)], &[(0, 1, 1)]));
    assert_eq!(c.compose(&f, &g)?, c.identity());

    let singular = map2(&c, &[(1, 0, 256), (0, 1, 15)], &[(1, 0, 1), (0, 1, 256)]);
    assert_eq!(c.invert(&singular), Err(Refusal::Singular));
    let regular = map2(&c, &[(1, 0, 256), (0, 1, 14)], &[(1, 0, 1), (0, 1, 256)]);
    assert_eq!(c.invert(&regular)?, map2(&c, &[(1, 0, 256), (0, 1, 65507)], &[(1, 0, 65520), (0, 1, 256)]));
    Ok(())
}

// ---- bad use ----

#[test]
fn settings() {
    for (n, v) in [(0, 1), (1, 0), (11, 1), (1, 9), (8, 8), (u32::MAX, u32::MAX), (65536, 65536)] {
        assert_eq!(Context::new(n, v).err(), Some(Refusal::SettingOutOfRange));
        assert_eq!((words::count(n, v), words::table_words(n, v), words::work_words(n, v)), (None, None, None));
    }
}

#[test]
fn table_refusals() -> Done {
    let mut table = [0; 18];
    assert_eq!(words::build_table(2, 2, &mut table[..17]), Err(Refusal::SliceTooShort { slice: 1 }));
    assert_eq!(table, [0; 18]);
    words::build_table(2, 2, &mut table)?;
    words::check_table(2, 2, &table)?;
    table.swap(13, 14);
    assert_eq!(words::check_table(2, 2, &table), Err(Refusal::TableDiffers { word: 13 }));
    assert_eq!(words::check_table(2, 2, &[]), Err(Refusal::SliceTooShort { slice: 1 }));
    Ok(())
}

#[test]
fn lengths() -> Done {
    let c = Context::new(2, 2)?;
    let a = series2(&c, &[(1, 0, 1)]);
    let mut table = [0; 18];
    words::build_table(2, 2, &mut table)?;
    let (mut result, mut work) = ([9; 7], vec![8; words::work_words(2, 2).unwrap()]);
    let short = |slice| Some(Refusal::SliceTooShort { slice });
    let w = a.words();
    assert_eq!(words::sum(2, 2, &w[..6], w, &mut result).err(), short(1));
    assert_eq!(words::sum(2, 2, w, &[], &mut result).err(), short(2));
    assert_eq!(words::sum(2, 2, w, w, &mut result[..6]).err(), short(3));
    assert_eq!(words::product(2, 2, &table[..17], w, w, &mut result, &mut work).err(), short(1));
    assert_eq!(words::product(2, 2, &table, &[], w, &mut result, &mut work).err(), short(2));
    assert_eq!(words::product(2, 2, &table, w, w, &mut [], &mut work).err(), short(4));
    assert_eq!(words::product(2, 2, &table, w, w, &mut result, &mut work[1..]).err(), short(5));
    assert_eq!(words::product(2, 2, &table, w, w, &mut result, &mut []).err(), short(5));
    assert_eq!(words::invert(2, 2, &table, w, &mut [0; 14], &mut work).err(), short(2));
    assert_eq!(c.read_series(&w[..6]).err(), short(1));
    assert_eq!(c.read_series(&[]).err(), short(1));
    assert_eq!(result, [9; 7]);
    assert!(work.iter().all(|&word| word == 8));
    assert_eq!(words::product(2, 2, &table, w, w, &mut result, &mut work), Ok(1));
    assert!(work.iter().all(|&word| word == 0));
    Ok(())
}

#[test]
fn images() -> Done {
    let c = Context::new(2, 2)?;
    let at = |argument, component, word| Some(Refusal::NotAnImage { argument, component, word });
    assert_eq!(c.read_series(&[2, 196609, 196609, 0, 0, 0, 0]).err(), at(1, 1, 2));
    assert_eq!(c.read_series(&[1, 2 << 16 | 65521, 0, 0, 0, 0, 0]).err(), at(1, 1, 1));
    assert_eq!(c.read_series(&[u32::MAX, 0, 0, 0, 0, 0, 0]).err(), at(1, 1, 0));
    assert_eq!(words::sum(2, 2, &[0; 7], &[1; 7], &mut [0; 7]).err(), at(2, 1, 1));
    Ok(())
}

#[test]
fn other_settings() -> Done {
    let (mut c, other) = (Context::new(2, 2)?, Context::new(3, 2)?);
    let (a, b) = (series2(&c, &[(1, 0, 1)]), series2(&other, &[(1, 0, 1)]));
    let (f, g) = (c.identity(), other.identity());
    assert_eq!(c.sum(&a, &b), Err(Refusal::OtherSetting { argument: 2 }));
    assert_eq!(c.sum(&b, &a), Err(Refusal::OtherSetting { argument: 1 }));
    assert_eq!(c.terms(&b), Err(Refusal::OtherSetting { argument: 1 }));
    assert_eq!(c.invert(&g), Err(Refusal::OtherSetting { argument: 1 }));
    assert_eq!(c.compose(&f, &g), Err(Refusal::OtherSetting { argument: 2 }));
    assert_eq!(c.substitute(&a, &g), Err(Refusal::OtherSetting { argument: 2 }));
    assert_eq!(c.map(&[a.clone(), b]), Err(Refusal::OtherSetting { argument: 1 }));
    assert_eq!(c.map(&[a]), Err(Refusal::OtherSetting { argument: 1 }));
    // n 2, v 1 and n 1, v 2 have as many monomials.
    let (small, flat) = (Context::new(2, 1)?, Context::new(1, 2)?);
    let (x, y) = (small.series(&[])?, flat.series(&[])?);
    assert_eq!(x.words(), y.words());
    assert_eq!(small.sum(&x, &y), Err(Refusal::OtherSetting { argument: 2 }));
    Ok(())
}

#[test]
fn numbers() -> Done {
    let mut c = Context::new(2, 2)?;
    let a = series2(&c, &[(1, 0, 1)]);
    assert_eq!(c.series(&[(&[1, 0], 65521)]), Err(Refusal::CoefficientOutOfRange));
    assert_eq!(c.series(&[(&[1, 0], u32::MAX)]), Err(Refusal::CoefficientOutOfRange));
    for exponents in [&[2, 1][..], &[3, 0], &[1], &[], &[1, 0, 0], &[1, u32::MAX], &[u32::MAX, u32::MAX]] {
        assert_eq!(c.series(&[(exponents, 1)]), Err(Refusal::NoMonomial));
    }
    assert_eq!(c.exponents(0), Err(Refusal::NoMonomial));
    assert_eq!(c.exponents(7), Err(Refusal::NoMonomial));
    for k in [0, 3, u32::MAX] {
        assert_eq!(c.derivative(k, &a), Err(Refusal::VariableOutOfRange));
    }
    assert_eq!(c.multiple(65521, &a), Err(Refusal::MultiplierOutOfRange));
    let zero = map2(&c, &[], &[]);
    assert_eq!(c.invert(&zero), Err(Refusal::Singular));
    let mut odd = Context::new(2, 3)?;
    let b = odd.series(&[])?;
    assert_eq!(odd.bracket(&b, &b), Err(Refusal::OddVariables));
    Ok(())
}

#[test]
fn constants() -> Done {
    let mut c = Context::new(2, 2)?;
    let a = series2(&c, &[(1, 0, 1)]);
    let shifted = map2(&c, &[(0, 0, 1), (1, 0, 1)], &[(0, 1, 1)]);
    let identity = c.identity();
    let refused = Refusal::HasConstant { component: 1 };
    assert_eq!(c.invert(&shifted), Err(refused));
    assert_eq!(c.substitute(&a, &shifted), Err(refused));
    assert_eq!(c.compose(&identity, &shifted), Err(refused));
    assert_eq!(c.compose(&shifted, &identity)?, shifted);
    Ok(())
}

#[test]
fn messages() {
    let refusal = Refusal::NotAnImage { argument: 2, component: 1, word: 3 };
    assert_eq!(refusal.to_string(), "refusal 7: argument 2, component 1 is not an image at word 3");
    assert_eq!((refusal.number(), refusal.place()), (Some(7), 3));
    assert_eq!((Refusal::NoMonomial.number(), Refusal::NoMonomial.place()), (None, 0));
}
