//! Reading texts as fractions, and writing fractions as texts.
use super::integer::{Element, Integer};
use super::ratio::{Proved, Ratio};
use super::reduced::Reduced;
use super::same::on_machine;
use super::schoolbook;
use crate::proved::num_rational::ParseRatioError;
use crate::proved::ratio_core::{text, BaseTenText, DecimalText, Form, RatioText};
use crate::proved::ratio_decimal::{DecimalRefusal, TextRefusal};
use core::fmt::{self, Write};
use core::ops::Deref;
use core::str::{self, FromStr};
use num_traits::Num;

impl<T: FromStr + Clone + num_integer::Integer> FromStr for Ratio<T> {
    type Err = ParseRatioError;

    #[inline]
    fn from_str(text: &str) -> Result<Ratio<T>, ParseRatioError> {
        on_machine!(T, same => same.back_if(read_by_machine(text)));
        schoolbook::read(text, true, |number| number.parse().ok())
    }
}

impl<T: Integer> Ratio<T> {
    /// The text that `{}` writes. It needs no formatter, so it takes less time. num-rational has no such call.
    ///
    /// ```
    /// use num_rational::Ratio;
    ///
    /// assert_eq!(Ratio::new(-6, 8).base_ten_text().as_str(), "-3/4");
    /// ```
    #[inline]
    pub fn base_ten_text(&self) -> BaseTenText {
        text::base_ten_text(self.numer().into_proved(), self.denom().into_proved())
    }

    /// Writes that text into `text`, in place of what was there. No array is moved, so it takes even less time.
    ///
    /// ```
    /// use num_rational::{BaseTenText, Ratio};
    ///
    /// let mut text = BaseTenText::empty();
    /// Ratio::new(-6, 8).put_base_ten_text(&mut text);
    /// assert_eq!(text.as_str(), "-3/4");
    /// ```
    #[inline]
    pub fn put_base_ten_text(&self, text: &mut BaseTenText) {
        text::put_base_ten_text(self.numer().into_proved(), self.denom().into_proved(), text);
    }

    /// The fraction of a decimal, as [`Reduced::from_decimal`] reads it. num-rational has no such call.
    ///
    /// # Errors
    ///
    /// `NotDecimal` if the text is no decimal, and `NotHeld` if it is one whose lowest terms do not fit the type.
    ///
    /// ```
    /// use num_rational::{DecimalRefusal, Ratio};
    ///
    /// assert_eq!(Ratio::from_decimal("-1.5e-3"), Ok(Ratio::new(-3, 2000)));
    /// assert_eq!(Ratio::<i8>::from_decimal("12,5"), Err(DecimalRefusal::NotDecimal));
    /// assert_eq!(Ratio::<i8>::from_decimal("128"), Err(DecimalRefusal::NotHeld));
    /// ```
    #[inline]
    pub fn from_decimal(text: &str) -> Result<Ratio<T>, DecimalRefusal> {
        Reduced::from_decimal(text).map(Ratio::from)
    }

    /// The fraction of what a person types into one field, as [`Reduced::from_text`] reads it. num-rational has no such call.
    ///
    /// # Errors
    ///
    /// `NotNumber`, `ZeroDenominator` or `NotHeld`, as there.
    ///
    /// ```
    /// use num_rational::{Ratio, TextRefusal};
    ///
    /// assert_eq!(Ratio::from_text("-1 1/2"), Ok(Ratio::new(-3, 2)));
    /// assert_eq!(Ratio::from_text("12.5%"), Ok(Ratio::new(1, 8)));
    /// assert_eq!(Ratio::<i8>::from_text("1/0"), Err(TextRefusal::ZeroDenominator));
    /// ```
    #[inline]
    pub fn from_text(text: &str) -> Result<Ratio<T>, TextRefusal> {
        Reduced::from_text(text).map(Ratio::from)
    }
}

impl<T: Clone + num_integer::Integer> Num for Ratio<T> {
    type FromStrRadixErr = ParseRatioError;

    /// The lowest terms of a text `N/D` in the radix.
    ///
    /// # Panics
    ///
    /// If the radix is not from 2 to 36.
    #[inline]
    #[track_caller]
    fn from_str_radix(text: &str, radix: u32) -> Result<Ratio<T>, ParseRatioError> {
        on_machine!(T, same => same.back_if(read_radix_by_machine(text, radix)));
        schoolbook::read(text, false, |number| T::from_str_radix(number, radix).ok())
    }
}

// The proved calls, for the machine types.

#[inline]
pub(super) fn read_by_machine<T: Integer>(text: &str) -> Result<Ratio<T>, ParseRatioError> {
    Proved::<T>::from_str(text).map(Ratio::from_proved)
}

#[inline]
#[track_caller]
pub(super) fn read_radix_by_machine<T: Integer>(text: &str, radix: u32) -> Result<Ratio<T>, ParseRatioError> {
    assert!(
        (2..=36).contains(&radix),
        "from_str_radix_int: must lie in the range `[2, 36]` - found {}",
        radix
    );
    Proved::<T>::from_str_radix(text, radix).map(Ratio::from_proved)
}

/// Writes a fraction over any type that is no machine type: the numerator, a slash and the denominator. `$number` is how a number is written,
/// and `$alternate` how one is with `#`. As in num-rational, there are no fill and no width without memory.
macro_rules! write_fields_of_any {
    ($x:expr, $f:ident: $prefix:literal $number:literal $alternate:literal) => {{
        let (numer, denom) = ($x.numer(), $x.denom());
        #[cfg(feature = "alloc")]
        {
            let text = match (denom.is_one(), $f.alternate()) {
                (true, _) => alloc::format!($number, numer),
                (false, false) => alloc::format!(concat!($number, "/", $number), numer, denom),
                (false, true) => alloc::format!(concat!($number, "/", $alternate), numer, denom),
            };
            match text.strip_prefix('-') {
                Some(digits) => $f.pad_integral(false, $prefix, digits),
                None => $f.pad_integral(true, $prefix, &text),
            }
        }
        #[cfg(not(feature = "alloc"))]
        {
            let plus = if $f.sign_plus() && *numer >= T::zero() { "+" } else { "" };
            match (denom.is_one(), $f.alternate()) {
                (true, false) => write!($f, concat!("{}", $number), plus, numer),
                (true, true) => write!($f, concat!("{}", $alternate), plus, numer),
                (false, false) => write!($f, concat!("{}", $number, "/", $number), plus, numer, denom),
                (false, true) => write!($f, concat!("{}", $alternate, "/", $alternate), plus, numer, denom),
            }
        }
    }};
}

macro_rules! forms {
    ($($Form:ident $form:ident $machine:ident $prefix:literal $number:literal $alternate:literal;)*) => {$(
        impl<T: fmt::$Form + Clone + num_integer::Integer> fmt::$Form for Ratio<T> {
            #[inline]
            fn fmt(&self, f: &mut fmt::Formatter<'_>) -> fmt::Result {
                on_machine!(T, same => $machine(same.fraction(self), f));
                write_fields_of_any!(self, f: $prefix $number $alternate)
            }
        }

        // A fraction with the denominator 0 has no value, so no proved call prints it. Its text is that of its fields, too: `1/0`.
        #[inline]
        pub(super) fn $machine<T: Integer>(x: &Ratio<T>, f: &mut fmt::Formatter<'_>) -> fmt::Result {
            match x.checked_proved() {
                Some(fraction) => fmt::$Form::fmt(&fraction, f),
                None => write_fields(x, Form::$form, $prefix, f),
            }
        }
    )*};
}

forms! {
    Display Decimal decimal_of_machine "" "{}" "{:#}";
    Binary Binary binary_of_machine "0b" "{:b}" "{:#b}";
    Octal Octal octal_of_machine "0o" "{:o}" "{:#o}";
    LowerHex LowerHex lower_hex_of_machine "0x" "{:x}" "{:#x}";
    UpperHex UpperHex upper_hex_of_machine "0x" "{:X}" "{:#X}";
}

#[cold]
fn write_fields<T: Integer>(x: &Ratio<T>, form: Form, prefix: &str, f: &mut fmt::Formatter<'_>) -> fmt::Result {
    let fields = text::text(x.numer().into_proved(), x.denom().into_proved(), form, f.alternate());
    let fields = fields.as_str();
    match fields.strip_prefix('-') {
        Some(digits) => f.pad_integral(false, prefix, digits),
        None => f.pad_integral(true, prefix, fields.strip_prefix(prefix).unwrap_or(fields)),
    }
}

// What each text type has, beside `as_str`.
macro_rules! texts {
    ($($Text:ty)*) => {$(
        impl Deref for $Text {
            type Target = str;

            #[inline]
            fn deref(&self) -> &str {
                self.as_str()
            }
        }

        impl AsRef<str> for $Text {
            #[inline]
            fn as_ref(&self) -> &str {
                self.as_str()
            }
        }

        impl fmt::Display for $Text {
            #[inline]
            fn fmt(&self, f: &mut fmt::Formatter<'_>) -> fmt::Result {
                f.pad(self.as_str())
            }
        }

        impl fmt::Debug for $Text {
            #[inline]
            fn fmt(&self, f: &mut fmt::Formatter<'_>) -> fmt::Result {
                fmt::Debug::fmt(self.as_str(), f)
            }
        }
    )*};
}

texts! { BaseTenText DecimalText RatioText }

// The forms with an exponent, `{:e}` and `{:E}`. Each field is written in the form of its own type. They are not proved: tests compare them with
// num-rational.

/// Two numbers of 39 digits, each with a sign, a point and `e38`, and a slash.
const MOST_BYTES: usize = 2 * (39 + 1 + 1 + 3) + 1;

/// A text that is being written.
struct Text {
    bytes: [u8; MOST_BYTES],
    end: usize,
}

impl Text {
    const EMPTY: Text = Text { bytes: [0; MOST_BYTES], end: 0 };

    /// Writes the text as std writes an integer with these digits: with the sign, the fill and the width of the formatter.
    fn pad(&self, f: &mut fmt::Formatter<'_>) -> fmt::Result {
        let text = str::from_utf8(&self.bytes[..self.end]).map_err(|_| fmt::Error)?;
        match text.strip_prefix('-') {
            Some(digits) => f.pad_integral(false, "", digits),
            None => f.pad_integral(true, "", text),
        }
    }
}

impl Write for Text {
    fn write_str(&mut self, piece: &str) -> fmt::Result {
        let end = self.end + piece.len();
        self.bytes.get_mut(self.end..end).ok_or(fmt::Error)?.copy_from_slice(piece.as_bytes());
        self.end = end;
        Ok(())
    }
}

macro_rules! exponent_forms {
    ($($Form:ident $machine:ident $number:literal $alternate:literal;)*) => {$(
        /// The numerator, a slash and the denominator, each with its own exponent. This is not proved.
        impl<T: fmt::$Form + Clone + num_integer::Integer> fmt::$Form for Ratio<T> {
            fn fmt(&self, f: &mut fmt::Formatter<'_>) -> fmt::Result {
                on_machine!(T, same => $machine(same.fraction(self), f));
                write_fields_of_any!(self, f: "" $number $alternate)
            }
        }

        pub(super) fn $machine<T: Integer>(x: &Ratio<T>, f: &mut fmt::Formatter<'_>) -> fmt::Result {
            let mut text = Text::EMPTY;
            if x.is_integer() {
                write!(text, $number, x.numer())?;
            } else {
                write!(text, concat!($number, "/", $number), x.numer(), x.denom())?;
            }
            text.pad(f)
        }
    )*};
}

exponent_forms! {
    LowerExp lower_exp_of_machine "{:e}" "{:#e}";
    UpperExp upper_exp_of_machine "{:E}" "{:#E}";
}
