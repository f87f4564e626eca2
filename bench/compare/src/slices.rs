//! A call on each fraction or pair of a slice, for a fraction type with the names of num-rational.

/// The items of each call, and a place for each result.
macro_rules! slices {
    ($($Bound:path),+) => {
        pub type Pair<T> = (Ratio<T>, Ratio<T>);

        fn answered<T: Number>(checked: Option<Ratio<T>>) -> Answer<T>
        where
            $(T: $Bound),+
        {
            match checked {
                Some(x) => Answer::some(*x.numer(), *x.denom()),
                None => Answer::none(0),
            }
        }

        #[inline(always)]
        fn each<A, T: Number>(asked: &[A], out: &mut [Answer<T>], call: impl Fn(&A) -> Answer<T>) {
            for (one, place) in asked.iter().zip(out) {
                *place = call(one);
            }
        }

        slices! { @checked $($Bound),+; checked_add checked_sub checked_mul checked_div }
        slices! { @single $($Bound),+; reduced floor round }

        #[inline(never)]
        pub fn cmp<T: Number>(pairs: &[Pair<T>], out: &mut [i32])
        where
            $(T: $Bound),+
        {
            for (pair, place) in pairs.iter().zip(out) {
                *place = pair.0.cmp(&pair.1) as i32;
            }
        }

        #[inline(never)]
        pub fn hash<T: Number>(fractions: &[Ratio<T>], out: &mut [u64])
        where
            $(T: $Bound),+
        {
            for (x, place) in fractions.iter().zip(out) {
                let mut mixing = Mixing::new();
                x.hash(&mut mixing);
                *place = mixing.finish();
            }
        }

        #[inline(never)]
        pub fn to_integer<T: Number>(fractions: &[Ratio<T>], out: &mut [Answer<T>])
        where
            $(T: $Bound),+
        {
            each(fractions, out, |x| Answer::some(x.to_integer(), T::one()));
        }

        #[inline(never)]
        pub fn recip<T: Number>(fractions: &[Ratio<T>], out: &mut [Answer<T>])
        where
            $(T: $Bound),+
        {
            each(fractions, out, |x| answered(Some(x.recip())));
        }

        #[inline(always)]
        fn read<T: Number, E>(
            texts: &[u8],
            spans: &[Span],
            out: &mut [Answer<T>],
            reading: impl Fn(&str) -> Result<Ratio<T>, E>,
        )
        where
            $(T: $Bound),+
        {
            let texts = std::str::from_utf8(texts).expect("the texts are ASCII");
            for (span, place) in spans.iter().zip(out) {
                *place = match texts.get(span.start..span.end).map(&reading) {
                    Some(Ok(x)) => Answer::some(*x.numer(), *x.denom()),
                    _ => Answer::none(5),
                };
            }
        }

        #[inline(never)]
        pub fn from_str<T: Number>(texts: &[u8], spans: &[Span], out: &mut [Answer<T>])
        where
            $(T: $Bound),+
        {
            read(texts, spans, out, |text| text.parse::<Ratio<T>>());
        }

        /// In base 16.
        #[inline(never)]
        pub fn from_str_radix<T: Number>(texts: &[u8], spans: &[Span], out: &mut [Answer<T>])
        where
            $(T: $Bound),+
        {
            read(texts, spans, out, |text| Ratio::<T>::from_str_radix(text, 16));
        }

        #[inline(always)]
        fn print<T: Number>(
            fractions: &[Ratio<T>],
            out: &mut [u8],
            ends: &mut [usize],
            write: impl Fn(&mut &mut [u8], &Ratio<T>) -> std::io::Result<()>,
        ) {
            let room = out.len();
            let mut rest = out;
            for (x, end) in fractions.iter().zip(ends) {
                write(&mut rest, x).expect("the buffer has room");
                *end = room - rest.len();
            }
        }

        #[inline(never)]
        pub fn printed<T: Number>(fractions: &[Ratio<T>], out: &mut [u8], ends: &mut [usize])
        where
            $(T: $Bound),+
        {
            print(fractions, out, ends, |rest, x| write!(rest, "{}", x));
        }

        #[inline(never)]
        pub fn hex<T: Number>(fractions: &[Ratio<T>], out: &mut [u8], ends: &mut [usize])
        where
            $(T: $Bound),+
        {
            print(fractions, out, ends, |rest, x| write!(rest, "{:x}", x));
        }
    };
    (@checked $($Bound:path),+; $call:ident $($more:ident)*) => {
        #[inline(never)]
        pub fn $call<T: Number>(pairs: &[Pair<T>], out: &mut [Answer<T>])
        where
            $(T: $Bound),+
        {
            each(pairs, out, |pair| answered(pair.0.$call(&pair.1)));
        }

        slices! { @checked $($Bound),+; $($more)* }
    };
    (@single $($Bound:path),+; $call:ident $($more:ident)*) => {
        #[inline(never)]
        pub fn $call<T: Number>(fractions: &[Ratio<T>], out: &mut [Answer<T>])
        where
            $(T: $Bound),+
        {
            each(fractions, out, |x| answered(Some(x.$call())));
        }

        slices! { @single $($Bound),+; $($more)* }
    };
    (@checked $($Bound:path),+;) => {};
    (@single $($Bound:path),+;) => {};
}
