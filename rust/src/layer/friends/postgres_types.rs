//! Fractions of `i64` as values of PostgreSQL's type `ratio`, for the crates postgres and tokio-postgres. The extension in databases/postgres
//! of the repository brings the type, in whichever schema it was created.
//!
//! A `numeric` is refused, since most fractions have no finite decimal: cast it in SQL, as `price::ratio`.
use super::super::ratio::Ratio;
use super::super::reduced::Reduced;
use alloc::boxed::Box;
use alloc::format;
use bytes::{BufMut, BytesMut};
use postgres_types::{to_sql_checked, FromSql, IsNull, Kind, ToSql, Type};
use std::error::Error;

type Refusal = Box<dyn Error + Sync + Send>;

fn is_ratio(kind: &Type) -> bool {
    kind.name() == "ratio" && *kind.kind() == Kind::Simple
}

/// The numerator and the denominator, 64 bits each, the highest byte first.
impl ToSql for Reduced<i64> {
    fn to_sql(&self, _: &Type, out: &mut BytesMut) -> Result<IsNull, Refusal> {
        out.put_i64(*self.numer());
        out.put_i64(*self.denom());
        Ok(IsNull::No)
    }

    fn accepts(kind: &Type) -> bool {
        is_ratio(kind)
    }

    to_sql_checked!();
}

/// The lowest terms, or an error if the denominator is 0 or they do not fit.
impl ToSql for Ratio<i64> {
    fn to_sql(&self, kind: &Type, out: &mut BytesMut) -> Result<IsNull, Refusal> {
        Reduced::try_from(*self)?.to_sql(kind, out)
    }

    fn accepts(kind: &Type) -> bool {
        is_ratio(kind)
    }

    to_sql_checked!();
}

/// As the server, it refuses what is not in lowest terms.
impl FromSql<'_> for Reduced<i64> {
    fn from_sql(_: &Type, bytes: &[u8]) -> Result<Reduced<i64>, Refusal> {
        let bytes = <[u8; 16]>::try_from(bytes).map_err(|_| format!("a binary ratio has 16 bytes, and not {}", bytes.len()))?;
        let both = u128::from_be_bytes(bytes);
        let (numer, denom) = ((both >> 64) as i64, both as i64);
        match Reduced::checked_new(numer, denom) {
            Some(fraction) if fraction.into_raw() == (numer, denom) => Ok(fraction),
            _ => Err(format!("invalid binary ratio: {numer}/{denom} is not in lowest terms with a denominator above 0").into()),
        }
    }

    fn accepts(kind: &Type) -> bool {
        is_ratio(kind)
    }
}

/// As a `Reduced`.
impl FromSql<'_> for Ratio<i64> {
    fn from_sql(kind: &Type, bytes: &[u8]) -> Result<Ratio<i64>, Refusal> {
        Reduced::from_sql(kind, bytes).map(Ratio::from)
    }

    fn accepts(kind: &Type) -> bool {
        is_ratio(kind)
    }
}
