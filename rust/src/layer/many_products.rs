//! Products and quotients of many `Reduced`s, which lose nothing on the way.
//!
//! The steps are taken first. If one has no result, each number above is cancelled against each number below, before anything is
//! multiplied. This takes memory for two numbers an item, so it needs the feature `alloc`.
#[cfg(feature = "alloc")]
use super::integer::Element;
use super::integer::Integer;
use super::reduced::Reduced;
#[cfg(feature = "alloc")]
use crate::proved::ratio_core::products::many_products;
#[cfg(feature = "alloc")]
use alloc::vec::Vec;

impl<T: Integer> Reduced<T> {
    /// The product of the items, or `None` if its lowest terms do not fit the type. No number on the way has to fit. So the order
    /// of the items changes nothing.
    ///
    /// ```
    /// use num_rational::Reduced64;
    ///
    /// // A light year in miles: metres, inches per 100 metres, inches per mile.
    /// let rates = ["9460730472580800", "5000/127", "1/63360"].map(|text| text.parse::<Reduced64>().unwrap());
    /// let miles = Reduced64::checked_new(8212439646337500, 1397);
    /// # #[cfg(feature = "alloc")]
    /// assert_eq!(Reduced64::checked_product(rates), miles);
    /// assert_eq!(rates[0].checked_mul(rates[1]), None); // this step does not fit
    /// ```
    ///
    /// If each step fits, this is as fast as the steps. If one does not, the time from there on grows with the square of the number
    /// of items that are left, and the call takes memory for two numbers an item. It takes all items, so these must end. Without
    /// the feature `alloc` there is no such memory: then the product is also `None` if a step is.
    #[inline]
    #[must_use]
    pub fn checked_product<O: Into<Reduced<T>>, I: IntoIterator<Item = O>>(items: I) -> Option<Reduced<T>> {
        let mut total = Reduced::ONE;
        let mut items = items.into_iter();
        while let Some(item) = items.next() {
            let item = item.into();
            match total.checked_mul(item) {
                Some(product) => total = product,
                #[cfg(feature = "alloc")]
                None => return Numbers::of(&[total, item], items).quotient(),
                #[cfg(not(feature = "alloc"))]
                None => return None,
            }
        }
        Some(total)
    }

    /// The product of the items `above` divided by each item `below`, or `None` if an item below is 0 or the lowest terms do not
    /// fit the type. No number on the way has to fit. It takes all items, so these must end.
    ///
    /// ```
    /// use num_rational::Reduced;
    ///
    /// let speed = Reduced::checked_quotient_of([100i8, 36], [60, 60]);
    /// assert_eq!(speed, Some(1.into()));
    /// assert_eq!(Reduced::checked_quotient_of([1i8], [0]), None);
    /// ```
    #[cfg(feature = "alloc")]
    #[must_use]
    pub fn checked_quotient_of<O, P>(
        above: impl IntoIterator<Item = O>,
        below: impl IntoIterator<Item = P>,
    ) -> Option<Reduced<T>>
    where
        O: Into<Reduced<T>>,
        P: Into<Reduced<T>>,
    {
        let mut numbers = Numbers::of(&[], above);
        numbers.divide(below);
        numbers.quotient()
    }
}

/// The numbers above and below the line of a quotient, as the proved calls see them.
#[cfg(feature = "alloc")]
struct Numbers<T: Integer> {
    above: Vec<<T as Element>::Proved>,
    below: Vec<<T as Element>::Proved>,
}

#[cfg(feature = "alloc")]
impl<T: Integer> Numbers<T> {
    #[cold]
    fn of<O: Into<Reduced<T>>>(first: &[Reduced<T>], others: impl IntoIterator<Item = O>) -> Numbers<T> {
        let items = first.iter().copied().chain(others.into_iter().map(Into::into));
        let (above, below) = items.map(proved_numbers).unzip();
        Numbers { above, below }
    }

    fn divide<O: Into<Reduced<T>>>(&mut self, items: impl IntoIterator<Item = O>) {
        for item in items {
            let (numer, denom) = proved_numbers(item.into());
            self.above.push(denom);
            self.below.push(numer);
        }
    }

    fn quotient(mut self) -> Option<Reduced<T>> {
        let (numer, denom) = many_products::checked_quotient_of_products(&mut self.above, &mut self.below)?;
        Reduced::checked_new(T::from_proved(numer), T::from_proved(denom))
    }
}

#[cfg(feature = "alloc")]
fn proved_numbers<T: Integer>(x: Reduced<T>) -> (<T as Element>::Proved, <T as Element>::Proved) {
    let (numer, denom) = x.into_raw();
    (numer.into_proved(), denom.into_proved())
}
