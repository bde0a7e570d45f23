use std::{fmt, ops::Not, slice};

/// A literal: a variable with a sign. Its code is twice the variable, plus 1 when it is positive.
///
/// ```
/// use sigvort::Lit;
///
/// let lit = Lit::new(2, true);
/// assert_eq!(lit.code(), 5);
/// assert_eq!((!lit).code(), 4);
/// assert_eq!((!lit).var(), 2);
/// ```
#[derive(Clone, Copy, PartialEq, Eq, PartialOrd, Ord, Hash)]
#[repr(transparent)]
pub struct Lit(u32);

impl Lit {
    /// The literal of a variable that is positive or negative.
    ///
    /// # Panics
    ///
    /// Where the variable has no code in 32 bits, that is, from 2,147,483,648 on.
    #[inline]
    pub const fn new(var: u32, positive: bool) -> Lit {
        assert!(var <= u32::MAX >> 1, "the variable has no code in 32 bits");
        Lit(var << 1 | positive as u32)
    }

    /// The literal with this code.
    #[inline]
    pub const fn from_code(code: u32) -> Lit {
        Lit(code)
    }

    /// The literal's code.
    #[inline]
    pub const fn code(self) -> u32 {
        self.0
    }

    /// The literal's variable.
    #[inline]
    pub const fn var(self) -> u32 {
        self.0 >> 1
    }

    /// Whether the literal is positive.
    #[inline]
    pub const fn is_positive(self) -> bool {
        self.0 & 1 == 1
    }

    /// Codes as literals.
    #[inline]
    pub(crate) fn of_codes(codes: &[u32]) -> &[Lit] {
        // SAFETY: a literal is its code and nothing else (`repr(transparent)`), and every code is a literal.
        unsafe { slice::from_raw_parts(codes.as_ptr().cast(), codes.len()) }
    }
}

impl Not for Lit {
    type Output = Lit;

    /// The same variable with the other sign.
    #[inline]
    fn not(self) -> Lit {
        Lit(self.0 ^ 1)
    }
}

/// The variable behind its sign: `+2` or `-2`.
impl fmt::Debug for Lit {
    fn fmt(&self, f: &mut fmt::Formatter<'_>) -> fmt::Result {
        write!(f, "{}{}", if self.is_positive() { '+' } else { '-' }, self.var())
    }
}

#[cfg(test)]
mod tests {
    use super::*;

    #[test]
    fn code_and_parts_agree() {
        for code in [0, 1, 2, 3, 4095, u32::MAX - 1, u32::MAX] {
            let lit = Lit::from_code(code);
            assert_eq!(Lit::new(lit.var(), lit.is_positive()), lit);
            assert_eq!(lit.code(), code);
            assert_eq!((!lit).var(), lit.var());
            assert_ne!((!lit).is_positive(), lit.is_positive());
            assert_eq!(!!lit, lit);
        }
    }

    #[test]
    #[should_panic(expected = "no code in 32 bits")]
    fn a_variable_without_code_panics() {
        Lit::new(1 << 31, false);
    }

    #[test]
    fn codes_are_literals() {
        assert_eq!(Lit::of_codes(&[5, 0]), [Lit::new(2, true), Lit::new(0, false)]);
        assert_eq!(format!("{:?}", Lit::of_codes(&[5, 0])), "[+2, -0]");
    }
}
