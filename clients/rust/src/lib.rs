//! Truncated power-series maps modulo 65,521: a safe wrapper of the proved kernel.
//!
//! [`Context`] owns the table and the work space of one setting; [`Series`] and [`Map`] know their setting, so that
//! one of another setting is a [`Refusal`] and not a wrong result. The module [`words`] is the layer below: the
//! kernel's calls over slices, which the borrow rules keep apart as the interface asks.
//!
//! ```
//! use yigtrav::Context;
//! let mut c = Context::new(2, 1)?;
//! let a = c.series(&[(&[0], 1), (&[1], 1)])?;
//! let (square, pairs) = c.product(&a, &a)?;
//! assert_eq!(c.terms(&square)?, [(vec![0], 1), (vec![1], 2), (vec![2], 1)]);
//! assert_eq!(pairs, 4);
//! # Ok::<(), yigtrav::Refusal>(())
//! ```

pub mod words;

use std::fmt;

/// p. Coefficients are 0 to p - 1.
pub const MODULUS: u32 = 65_521;

/// Why a call was declined. All but the last four are the kernel's, with the places that it gives.
#[derive(Clone, Copy, Debug, PartialEq, Eq)]
pub enum Refusal {
    /// 1: n, v or N out of range.
    SettingOutOfRange,
    /// 2: a slice is too short; which one, from 1, in the order of the arguments.
    SliceTooShort { slice: u64 },
    /// 3: the variable is not 1 to v.
    VariableOutOfRange,
    /// 4: bracket with odd v.
    OddVariables,
    /// 5: the multiplier is above 65,520.
    MultiplierOutOfRange,
    /// 6: a table word, from 0, differs from the rule.
    TableDiffers { word: u64 },
    /// 7: an input series is not an image. Arguments and components count from 1.
    NotAnImage { argument: u32, component: u32, word: u64 },
    /// 8: a component, from 1, of the inner or inverted map has a constant.
    HasConstant { component: u64 },
    /// 9: the linear part is singular modulo p.
    Singular,
    /// The wrapper's: a series or map of another setting; which argument, from 1.
    OtherSetting { argument: u32 },
    /// The wrapper's: exponents of no monomial of the setting.
    NoMonomial,
    /// The wrapper's: a coefficient above 65,520.
    CoefficientOutOfRange,
    /// The wrapper's: an answer that the interface does not have.
    Unknown { answer: u64 },
}

impl Refusal {
    /// The kernel's number of the refusal, none where the wrapper itself declined.
    pub fn number(self) -> Option<u32> {
        Some(match self {
            Refusal::SettingOutOfRange => 1,
            Refusal::SliceTooShort { .. } => 2,
            Refusal::VariableOutOfRange => 3,
            Refusal::OddVariables => 4,
            Refusal::MultiplierOutOfRange => 5,
            Refusal::TableDiffers { .. } => 6,
            Refusal::NotAnImage { .. } => 7,
            Refusal::HasConstant { .. } => 8,
            Refusal::Singular => 9,
            _ => return None,
        })
    }

    /// The kernel's place: for refusal 7 the word inside the component.
    pub fn place(self) -> u64 {
        match self {
            Refusal::SliceTooShort { slice } => slice,
            Refusal::TableDiffers { word } => word,
            Refusal::NotAnImage { word, .. } => word,
            Refusal::HasConstant { component } => component,
            _ => 0,
        }
    }
}

impl fmt::Display for Refusal {
    fn fmt(&self, f: &mut fmt::Formatter<'_>) -> fmt::Result {
        if let Some(number) = self.number() {
            write!(f, "refusal {number}: ")?;
        }
        match self {
            Refusal::SettingOutOfRange => write!(f, "n, v or N out of range"),
            Refusal::SliceTooShort { slice } => write!(f, "slice {slice} is too short"),
            Refusal::VariableOutOfRange => write!(f, "variable not 1 to v"),
            Refusal::OddVariables => write!(f, "bracket with odd v"),
            Refusal::MultiplierOutOfRange => write!(f, "multiplier above 65,520"),
            Refusal::TableDiffers { word } => write!(f, "table word {word} differs from the rule"),
            Refusal::NotAnImage { argument, component, word } => {
                write!(f, "argument {argument}, component {component} is not an image at word {word}")
            }
            Refusal::HasConstant { component } => write!(f, "component {component} has a constant"),
            Refusal::Singular => write!(f, "linear part singular modulo 65,521"),
            Refusal::OtherSetting { argument } => write!(f, "argument {argument} is of another setting"),
            Refusal::NoMonomial => write!(f, "no such monomial in this setting"),
            Refusal::CoefficientOutOfRange => write!(f, "coefficient above 65,520"),
            Refusal::Unknown { answer } => write!(f, "unknown answer {answer}"),
        }
    }
}

impl std::error::Error for Refusal {}

/// A series of one setting; its words are always an image.
#[derive(Clone, Debug, PartialEq, Eq)]
pub struct Series {
    n: u32,
    v: u32,
    words: Vec<u32>,
}

/// A map of one setting: v series in one piece.
#[derive(Clone, Debug, PartialEq, Eq)]
pub struct Map {
    n: u32,
    v: u32,
    words: Vec<u32>,
}

impl Series {
    /// The N + 1 words.
    pub fn words(&self) -> &[u32] {
        &self.words
    }

    /// Number of entries.
    pub fn entries(&self) -> usize {
        self.words[0] as usize
    }
}

impl Map {
    /// The v (N + 1) words.
    pub fn words(&self) -> &[u32] {
        &self.words
    }

    /// The components, in order.
    pub fn components(&self) -> Vec<Series> {
        let length = self.words.len() / self.v as usize;
        let series = |part: &[u32]| Series { n: self.n, v: self.v, words: part.to_vec() };
        self.words.chunks(length).map(series).collect()
    }
}

/// What has a setting.
trait Set {
    fn setting(&self) -> (u32, u32);
}

impl Set for Series {
    fn setting(&self) -> (u32, u32) {
        (self.n, self.v)
    }
}

impl Set for Map {
    fn setting(&self) -> (u32, u32) {
        (self.n, self.v)
    }
}

/// One setting with its table and work space.
pub struct Context {
    n: u32,
    v: u32,
    count: usize,
    table: Vec<u16>,
    work: Vec<u32>,
}

impl Context {
    /// Order n, v variables.
    pub fn new(n: u32, v: u32) -> Result<Context, Refusal> {
        let count = words::count(n, v).ok_or(Refusal::SettingOutOfRange)?;
        let mut table = vec![0; words::table_words(n, v).ok_or(Refusal::SettingOutOfRange)?];
        let work = vec![0; words::work_words(n, v).ok_or(Refusal::SettingOutOfRange)?];
        words::build_table(n, v, &mut table)?;
        Ok(Context { n, v, count, table, work })
    }

    pub fn order(&self) -> u32 {
        self.n
    }

    pub fn variables(&self) -> u32 {
        self.v
    }

    /// N, the number of monomials.
    pub fn count(&self) -> usize {
        self.count
    }

    /// Variables in C1.
    fn half(&self) -> usize {
        (self.v as usize).div_ceil(2)
    }

    /// Position of the monomial with these exponents, by the table.
    pub fn position(&self, exponents: &[u32]) -> Result<u32, Refusal> {
        // The order is tested before codes are added: beyond n the table leads to other monomials.
        let order: u64 = exponents.iter().map(|&e| u64::from(e)).sum();
        if exponents.len() != self.v as usize || order > u64::from(self.n) {
            return Err(Refusal::NoMonomial);
        }
        let base = self.n as usize + 1;
        let code = |part: &[u32]| part.iter().rev().fold(0, |code, &e| code * base + e as usize);
        let (first, second) = exponents.split_at(self.half());
        let codes = self.table.len() / 2 - self.count;
        let (d1, d2) = self.table[2 * self.count..].split_at(codes);
        Ok(u32::from(d1[code(first)]) + u32::from(d2[code(second)]))
    }

    /// Exponents of the monomial at a position, from 1.
    pub fn exponents(&self, position: u32) -> Result<Vec<u32>, Refusal> {
        let at = position as usize;
        if at < 1 || at > self.count {
            return Err(Refusal::NoMonomial);
        }
        let (mut first, mut second) = (self.table[at - 1], self.table[self.count + at - 1]);
        let base = self.n as u16 + 1;
        Ok((0..self.v as usize)
            .map(|i| {
                let code = if i < self.half() { &mut first } else { &mut second };
                let digit = *code % base;
                *code /= base;
                u32::from(digit)
            })
            .collect())
    }

    // ---- series and maps ----

    /// The series with these terms, exponents and coefficient; a later term of the same monomial replaces an earlier.
    pub fn series(&self, terms: &[(&[u32], u32)]) -> Result<Series, Refusal> {
        let mut coefficients = std::collections::BTreeMap::new();
        for &(exponents, coefficient) in terms {
            if coefficient >= MODULUS {
                return Err(Refusal::CoefficientOutOfRange);
            }
            coefficients.insert(self.position(exponents)?, coefficient);
        }
        let mut image: Vec<u32> = vec![0];
        image.extend(coefficients.iter().filter(|(_, &c)| c != 0).map(|(position, c)| position << 16 | c));
        image[0] = image.len() as u32 - 1;
        image.resize(self.count + 1, 0);
        Ok(Series { n: self.n, v: self.v, words: image })
    }

    /// The map with these components.
    pub fn map(&self, components: &[Series]) -> Result<Map, Refusal> {
        if components.len() != self.v as usize {
            return Err(Refusal::OtherSetting { argument: 1 });
        }
        for component in components {
            self.check(1, component)?;
        }
        let words = components.iter().flat_map(|c| c.words.iter().copied()).collect();
        Ok(Map { n: self.n, v: self.v, words })
    }

    /// The identity map.
    pub fn identity(&self) -> Map {
        let mut words = vec![0; self.v as usize * (self.count + 1)];
        let mut exponents = vec![0; self.v as usize];
        for k in 0..self.v as usize {
            exponents[k] = 1;
            let position = self.position(&exponents).expect("order 1 is in every setting");
            exponents[k] = 0;
            words[k * (self.count + 1)] = 1;
            words[k * (self.count + 1) + 1] = position << 16 | 1;
        }
        Map { n: self.n, v: self.v, words }
    }

    /// Takes words over as a series, if they are an image.
    pub fn read_series(&self, words: &[u32]) -> Result<Series, Refusal> {
        let mut result = self.new_series();
        words::multiple(self.n, self.v, 1, words, &mut result.words)?;
        Ok(result)
    }

    /// Exponents and coefficient of each entry, by position.
    pub fn terms(&self, series: &Series) -> Result<Vec<(Vec<u32>, u32)>, Refusal> {
        self.check(1, series)?;
        let entries = &series.words[1..=series.entries()];
        entries.iter().map(|&entry| Ok((self.exponents(entry >> 16)?, entry & 0xffff))).collect()
    }

    fn new_series(&self) -> Series {
        Series { n: self.n, v: self.v, words: vec![0; self.count + 1] }
    }

    fn new_map(&self) -> Map {
        Map { n: self.n, v: self.v, words: vec![0; self.v as usize * (self.count + 1)] }
    }

    fn check(&self, argument: u32, what: &impl Set) -> Result<(), Refusal> {
        if what.setting() == (self.n, self.v) {
            Ok(())
        } else {
            Err(Refusal::OtherSetting { argument })
        }
    }

    // ---- operations ----

    pub fn sum(&self, a: &Series, b: &Series) -> Result<Series, Refusal> {
        self.check(1, a)?;
        self.check(2, b)?;
        let mut result = self.new_series();
        words::sum(self.n, self.v, &a.words, &b.words, &mut result.words)?;
        Ok(result)
    }

    pub fn difference(&self, a: &Series, b: &Series) -> Result<Series, Refusal> {
        self.check(1, a)?;
        self.check(2, b)?;
        let mut result = self.new_series();
        words::difference(self.n, self.v, &a.words, &b.words, &mut result.words)?;
        Ok(result)
    }

    /// c a.
    pub fn multiple(&self, c: u32, a: &Series) -> Result<Series, Refusal> {
        self.check(1, a)?;
        let mut result = self.new_series();
        words::multiple(self.n, self.v, c, &a.words, &mut result.words)?;
        Ok(result)
    }

    /// a b, and the number of pairs of entries that were multiplied.
    pub fn product(&mut self, a: &Series, b: &Series) -> Result<(Series, u64), Refusal> {
        self.check(1, a)?;
        self.check(2, b)?;
        let mut result = self.new_series();
        let pairs =
            words::product(self.n, self.v, &self.table, &a.words, &b.words, &mut result.words, &mut self.work)?;
        Ok((result, pairs))
    }

    /// In variable xk, k from 1.
    pub fn derivative(&self, k: u32, a: &Series) -> Result<Series, Refusal> {
        self.check(1, a)?;
        let mut result = self.new_series();
        words::derivative(self.n, self.v, k, &self.table, &a.words, &mut result.words)?;
        Ok(result)
    }

    pub fn bracket(&mut self, a: &Series, b: &Series) -> Result<Series, Refusal> {
        self.check(1, a)?;
        self.check(2, b)?;
        let mut result = self.new_series();
        words::bracket(self.n, self.v, &self.table, &a.words, &b.words, &mut result.words, &mut self.work)?;
        Ok(result)
    }

    /// The series a with component i of the map put in for xi.
    pub fn substitute(&mut self, a: &Series, map: &Map) -> Result<Series, Refusal> {
        self.check(1, a)?;
        self.check(2, map)?;
        let mut result = self.new_series();
        words::substitute(self.n, self.v, &self.table, &a.words, &map.words, &mut result.words, &mut self.work)?;
        Ok(result)
    }

    /// The inner map substituted into each component of the outer one.
    pub fn compose(&mut self, outer: &Map, inner: &Map) -> Result<Map, Refusal> {
        self.check(1, outer)?;
        self.check(2, inner)?;
        let mut result = self.new_map();
        words::compose(self.n, self.v, &self.table, &outer.words, &inner.words, &mut result.words, &mut self.work)?;
        Ok(result)
    }

    pub fn invert(&mut self, map: &Map) -> Result<Map, Refusal> {
        self.check(1, map)?;
        let mut result = self.new_map();
        words::invert(self.n, self.v, &self.table, &map.words, &mut result.words, &mut self.work)?;
        Ok(result)
    }
}
