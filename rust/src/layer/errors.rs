//! `Eq` and `Hash` of the errors of proved calls, which the proved source lacks.
use crate::proved::num_rational::{ParseRatioError, RatioErrorKind, SplitRefusal, WeightRefusal};
use crate::proved::ratio_decimal::{DecimalRefusal, TextRefusal};
use core::hash::{Hash, Hasher};
use core::mem::discriminant;

macro_rules! eq_and_hash {
    ($($Error:ident: $error:ident => $hashed:expr;)*) => {$(
        impl Eq for $Error {}

        impl Hash for $Error {
            fn hash<H: Hasher>(&self, state: &mut H) {
                let $error = self;
                $hashed.hash(state);
            }
        }
    )*};
}

eq_and_hash! {
    DecimalRefusal: refusal => discriminant(refusal);
    TextRefusal: refusal => discriminant(refusal);
    SplitRefusal: refusal => discriminant(refusal);
    WeightRefusal: refusal => discriminant(refusal);
    RatioErrorKind: kind => discriminant(kind);
    ParseRatioError: error => error.kind();
}
