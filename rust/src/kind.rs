//! Of which kind a value is.
#![forbid(unsafe_code)]

/// The kind of a field's value, whose text it comes with.
///
/// The macros tell it by the value's type: whole numbers, floating point numbers and `bool`, and references to these.
/// All else is text, and so is what methods are given, but for the number that `follows_from` tells.
#[derive(Clone, Copy, Debug, Default, PartialEq, Eq, Hash)]
pub enum Kind {
    /// Any text.
    #[default]
    Text,
    /// A whole number in decimal digits, perhaps with a minus.
    Integer,
    /// A floating point number, infinite ones and `NaN` among them.
    Float,
    /// `true` or `false`.
    Bool,
}

/// A value whose kind is asked by a reference to this. For the macros.
///
/// Where the value's type has a kind, the method of [`OfKind`] is found first, since that of [`OfText`] needs one
/// reference more.
#[doc(hidden)]
#[derive(Debug)]
pub struct Asked<'a, T: ?Sized>(pub &'a T);

/// A type that has a kind other than text.
#[doc(hidden)]
pub trait HasKind {
    /// Which.
    const KIND: Kind;
}

#[doc(hidden)]
pub trait OfKind {
    /// That of its type.
    fn kind(&self) -> Kind;
}

impl<T: HasKind + ?Sized> OfKind for Asked<'_, T> {
    fn kind(&self) -> Kind {
        T::KIND
    }
}

#[doc(hidden)]
pub trait OfText {
    /// Text.
    fn kind(&self) -> Kind {
        Kind::Text
    }
}

impl<T: ?Sized> OfText for &Asked<'_, T> {}

impl<T: HasKind + ?Sized> HasKind for &T {
    const KIND: Kind = T::KIND;
}

macro_rules! kinds {
    ($kind:ident: $($of:ty)+) => {
        $(
            impl HasKind for $of {
                const KIND: Kind = Kind::$kind;
            }
        )+
    };
}

kinds!(Integer: i8 i16 i32 i64 i128 isize u8 u16 u32 u64 u128 usize);
kinds!(Float: f32 f64);
kinds!(Bool: bool);

#[cfg(test)]
mod tests {
    use super::{Asked, Kind, OfKind, OfText};

    macro_rules! kinds_of {
        ($($value:expr),+) => {
            [$({
                let asked = &Asked(&$value);
                asked.kind()
            }),+]
        };
    }

    #[test]
    fn numbers_and_truths_have_their_kinds() {
        let number = 7;
        assert_eq!(kinds_of!(1_u8, -1_i128, &1_usize, number, 1 + 1), [Kind::Integer; 5]);
        assert_eq!(kinds_of!(1.5, &f32::NAN), [Kind::Float; 2]);
        assert_eq!(kinds_of!(true, &false), [Kind::Bool; 2]);
        assert_eq!(kinds_of!(*"1", "1", '1', String::new()), [Kind::Text; 4]);
        fn of_any<T: std::fmt::Display>(value: T) -> [Kind; 1] {
            kinds_of!(value)
        }
        assert_eq!(of_any(1), [Kind::Text]);
    }
}
