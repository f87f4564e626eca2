//! Each call on each kind of input: the results of all three libraries, then their times.

use crate::answer::{Answer, Number};
use crate::inputs::{Inputs, Texts};
use crate::kinds::{self, Fields, KINDS};
use crate::proved::{each, Crossing, Each, Exports, Hash, Order, Pair, Place, Span, Text};
use crate::random::Random;
use crate::row::{Counts, Row};
use crate::{erased, theirs};
use bakhsney::proved::ratio_integer::Primitive;
use num_rational::Ratio;
use std::fmt::Debug;

/// The number of pairs that are timed.
const COUNT: usize = 4096;

/// The erased crate and the proved library are compared on this many pairs of each type, about a million.
pub const COMPARED: usize = KINDS.len() * 49 * COUNT;

/// At most this many differing pairs of a type are printed.
const SHOWN: usize = 5;

/// The room for a text.
const ROOM: usize = 84;

type Run<'a, C> = &'a dyn Fn(&mut [Place<C>]);

type Answering<A, T> = fn(&[A], &mut [Answer<T>]);

type Reading<T> = fn(&[u8], &[Span], &mut [Answer<T>]);

type Printing<A> = fn(&[A], &mut [u8], &mut [usize]);

/// The bench of one integer type.
pub struct Bench<'a, C: Crossing> {
    exports: &'a Exports<C>,
    random: Random,
    filter: &'a str,
    is_timed: bool,
    differing: usize,
}

impl<'a, C: Crossing> Bench<'a, C>
where
    C::Number: bakhsney::integer::Integer + Primitive,
{
    pub fn new(exports: &'a Exports<C>, filter: &'a str) -> Bench<'a, C> {
        Bench { exports, random: Random::new(20_240_229), filter, is_timed: false, differing: 0 }
    }

    pub fn differing(&self) -> usize {
        self.differing
    }

    /// Compares the proved library and the erased crate on many pairs, and then times all three on some.
    pub fn run(&mut self) {
        for kind in KINDS {
            if self.filter.is_empty() {
                self.is_timed = false;
                for _ in 0..COMPARED / KINDS.len() / COUNT {
                    let raw = self.raw(kind);
                    self.calls(kind, &raw, &raw);
                }
            }
            self.is_timed = true;
            let raw = self.raw(kind);
            self.calls(kind, &raw, &Inputs::new(raw.fields.iter().map(|f| lowest(kind, f)).collect()));
        }
    }

    fn raw(&mut self, kind: &str) -> Inputs<C> {
        Inputs::new(kinds::pairs(kind, C::Number::WIDTH, COUNT, &mut self.random))
    }

    fn calls(&mut self, kind: &str, raw: &Inputs<C>, low: &Inputs<C>) {
        let e = self.exports;
        self.cmp(kind, low);
        self.hash(kind, low);
        self.pairs("checked_add", kind, low, e.add, erased::checked_add, theirs::checked_add);
        self.pairs("checked_sub", kind, low, e.sub, erased::checked_sub, theirs::checked_sub);
        self.pairs("checked_mul", kind, low, e.mul, erased::checked_mul, theirs::checked_mul);
        self.pairs("checked_div", kind, low, e.div, erased::checked_div, theirs::checked_div);
        self.remainders(kind, low);
        let reduce = |out: &mut [_]| each(e.reduce, &raw.first, out);
        self.answers("reduced", kind, raw, Some(&reduce), erased::reduced, theirs::reduced);
        self.answers("gcd", kind, raw, None, erased::gcd, theirs::gcd);
        // The crate rounds some wider fields wrongly, and most powers of them fit no type.
        if kind == "small" || kind == "half" {
            let many = self.many(kind, low);
            self.roundings(kind, &many);
            let nonzero = many.only(|f| f[0] != 0);
            self.answers("recip", kind, &nonzero, None, erased::recip, theirs::recip);
            self.answers("bare recip", kind, &nonzero, None, erased::bare_recip, theirs::recip);
            self.powers(kind, &nonzero);
        }
        self.texts(kind, raw, low);
    }

    /// Calls of a few nanoseconds are timed on many pairs, so that no processor can learn which way each one goes.
    fn many(&mut self, kind: &str, low: &Inputs<C>) -> Inputs<C> {
        let count = if self.is_timed { 16 * COUNT } else { 0 };
        let more = kinds::pairs(kind, C::Number::WIDTH, count, &mut self.random);
        Inputs::new(low.fields.iter().copied().chain(more.iter().map(|f| lowest(kind, f))).collect())
    }

    fn roundings(&mut self, kind: &str, low: &Inputs<C>) {
        let e = self.exports;
        let floor = |out: &mut [_]| each(e.floor, &low.first, out);
        let round = |out: &mut [_]| each(e.round, &low.first, out);
        self.answers("floor", kind, low, Some(&floor), erased::floor, theirs::floor);
        self.answers("round", kind, low, Some(&round), erased::round, theirs::round);
        self.answers("to_integer", kind, low, None, erased::to_integer, theirs::to_integer);
    }

    fn texts(&mut self, kind: &str, raw: &Inputs<C>, low: &Inputs<C>) {
        let e = self.exports;
        let (decimal, hexadecimal) = (Texts::decimal(&raw.fields), Texts::hexadecimal(&raw.fields));
        let read = |out: &mut [_]| e.read(&decimal.bytes, &decimal.spans, out);
        self.reading("from_str", kind, &decimal, Some(&read), erased::from_str, theirs::from_str);
        self.reading("from_str_radix", kind, &hexadecimal, None, erased::from_str_radix, theirs::from_str_radix);
        self.printing("text", kind, low, true, erased::text, theirs::printed);
        self.printing("hex", kind, low, false, erased::hex_text, theirs::hex);
        self.printing("{}", kind, low, false, erased::printed, theirs::printed);
        self.printing("{:x}", kind, low, false, erased::hex, theirs::hex);
    }

    fn passes(&self, call: &str, kind: &str) -> bool {
        format!("i{}/{}/{}", C::Number::WIDTH, call, kind).contains(self.filter)
    }

    fn row(&self, len: usize, proved: Option<&mut dyn FnMut()>, erased: &mut dyn FnMut(), theirs: &mut dyn FnMut()) -> Option<Row> {
        if self.is_timed {
            return Some(Row::timed(len, proved, erased, theirs));
        }
        if let Some(run) = proved {
            run();
        }
        erased();
        None
    }

    fn differs(&mut self, call: &str, input: &dyn Debug, answers: &dyn Debug) {
        self.differing += 1;
        if self.differing <= SHOWN {
            eprintln!("i{} {call} of {input:?}: {answers:?}", C::Number::WIDTH);
        }
    }

    /// Prints the row, after the results were compared. If a call is not timed, the crate did not make it.
    fn ended<A: PartialEq + Debug, I: Debug>(&mut self, call: &str, kind: &str, row: Option<Row>, all: &[(I, Option<A>, A, A)], is_none: fn(&A) -> bool) {
        let mut counts = Counts::default();
        for (input, proved, erased, theirs) in all {
            if proved.as_ref().map_or(false, |answer| answer != erased) {
                self.differs(call, input, &("proved and erased", proved, erased));
            } else if row.is_some() {
                match (is_none(erased), is_none(theirs)) {
                    (false, true) => counts.ours += 1,
                    (true, true) => counts.neither += 1,
                    _ if erased == theirs => counts.both += 1,
                    _ => self.differs(call, input, &("erased, and the crate", erased, theirs)),
                }
            }
        }
        if let Some(row) = row {
            row.print(C::Number::WIDTH, call, kind, counts);
        }
    }

    fn cmp(&mut self, kind: &str, inputs: &Inputs<C>) {
        if !self.passes("cmp", kind) {
            return;
        }
        let len = inputs.len();
        let (mut a, mut b, mut c) = (vec![Order::default(); len], vec![9; len], vec![9; len]);
        let run = self.exports.compare;
        let row = self.row(
            len,
            Some(&mut || each(run, &inputs.proved, &mut a)),
            &mut || erased::cmp(&inputs.erased, &mut b),
            &mut || theirs::cmp(&inputs.theirs, &mut c),
        );
        let all: Vec<_> = (0..len).map(|i| (inputs.fields[i], Some(a[i].order), b[i], c[i])).collect();
        self.ended("cmp", kind, row, &all, |_| false);
    }

    fn hash(&mut self, kind: &str, inputs: &Inputs<C>) {
        if !self.passes("hash", kind) {
            return;
        }
        let len = inputs.len();
        let (mut a, mut b, mut c) = (vec![Hash::default(); len], vec![0; len], vec![0; len]);
        let run = self.exports.hash;
        let row = self.row(
            len,
            Some(&mut || each(run, &inputs.first, &mut a)),
            &mut || erased::hash(&inputs.first_erased, &mut b),
            &mut || theirs::hash(&inputs.first_theirs, &mut c),
        );
        let all: Vec<_> = (0..len).map(|i| (inputs.fields[i], Some(a[i].hash), b[i], c[i])).collect();
        self.ended("hash", kind, row, &all, |_| false);
    }

    fn pairs(
        &mut self,
        call: &str,
        kind: &str,
        inputs: &Inputs<C>,
        run: Each<Pair<C>, Place<C>>,
        erased: Answering<erased::Pair<C::Number>, C::Number>,
        theirs: Answering<theirs::Pair<C::Number>, C::Number>,
    ) {
        let run = |out: &mut [_]| each(run, &inputs.proved, out);
        let erased = |out: &mut [_]| erased(&inputs.erased, out);
        let theirs = |out: &mut [_]| theirs(&inputs.theirs, out);
        self.all_three(call, kind, &inputs.fields, Some(&run), &erased, &theirs);
    }

    fn answers(
        &mut self,
        call: &str,
        kind: &str,
        inputs: &Inputs<C>,
        proved: Option<Run<C>>,
        erased: Answering<bakhsney::Ratio<C::Number>, C::Number>,
        theirs: Answering<Ratio<C::Number>, C::Number>,
    ) {
        let erased = |out: &mut [_]| erased(&inputs.first_erased, out);
        let theirs = |out: &mut [_]| theirs(&inputs.first_theirs, out);
        self.all_three(call, kind, &inputs.fields, proved, &erased, &theirs);
    }

    fn all_three<I: Debug + Copy>(
        &mut self,
        call: &str,
        kind: &str,
        inputs: &[I],
        proved: Option<Run<C>>,
        erased: &dyn Fn(&mut [Answer<C::Number>]),
        theirs: &dyn Fn(&mut [Answer<C::Number>]),
    ) {
        if !self.passes(call, kind) {
            return;
        }
        let len = inputs.len();
        let mut a = vec![Place::<C>::empty(); len];
        let (mut b, mut c) = (vec![Answer::none(8); len], vec![Answer::none(8); len]);
        let mut run = || proved.iter().for_each(|run| run(&mut a));
        let proved_run: Option<&mut dyn FnMut()> = if proved.is_some() { Some(&mut run) } else { None };
        let row = self.row(len, proved_run, &mut || erased(&mut b), &mut || theirs(&mut c));
        let all: Vec<_> = (0..len).map(|i| (inputs[i], proved.map(|_| a[i].answer()), b[i], c[i])).collect();
        self.ended(call, kind, row, &all, |answer| answer.code == 0);
    }

    /// The calls are timed and compared where the crate's `%` is defined. Elsewhere the call for C has results that `Ratio` has not.
    fn remainders(&mut self, kind: &str, inputs: &Inputs<C>) {
        let defined = inputs.only(|f| remainder_held(C::Number::WIDTH, f));
        if defined.len() >= 64 {
            self.pairs("checked_rem", kind, &defined, self.exports.rem, erased::checked_rem, theirs::checked_rem);
        }
    }

    /// Powers with small exponents of both signs, of fractions that are not 0. Each fits.
    fn powers(&mut self, kind: &str, inputs: &Inputs<C>) {
        let most = if kind == "small" { 3 } else { 2 };
        let exponent = |f: &Fields| f[2].rem_euclid(2 * most + 1) as i32 - most as i32;
        let exponents: Vec<i32> = inputs.fields.iter().map(exponent).collect();
        let asked: Vec<_> = inputs.proved.iter().zip(&exponents).map(|(pair, exponent)| pair.left_to(*exponent)).collect();
        let run = self.exports.pow;
        let erased = |out: &mut [_]| erased::pow(&inputs.first_erased, &exponents, out);
        let theirs = |out: &mut [_]| theirs::pow(&inputs.first_theirs, &exponents, out);
        self.all_three("pow", kind, &inputs.fields, Some(&|out: &mut [_]| each(run, &asked, out)), &erased, &theirs);
    }

    fn reading(
        &mut self,
        call: &str,
        kind: &str,
        texts: &Texts,
        proved: Option<Run<C>>,
        erased: Reading<C::Number>,
        theirs: Reading<C::Number>,
    ) {
        let erased = |out: &mut [_]| erased(&texts.bytes, &texts.spans, out);
        let theirs = |out: &mut [_]| theirs(&texts.bytes, &texts.spans, out);
        self.all_three(call, kind, &texts.spans, proved, &erased, &theirs);
    }

    fn printing(
        &mut self,
        call: &str,
        kind: &str,
        inputs: &Inputs<C>,
        is_proved: bool,
        erased: Printing<bakhsney::Ratio<C::Number>>,
        theirs: Printing<Ratio<C::Number>>,
    ) {
        if !self.passes(call, kind) {
            return;
        }
        let len = inputs.len();
        let buffer = || (vec![0u8; ROOM * len], vec![0usize; len]);
        let (mut a, mut spans) = (vec![0u8; ROOM * len], vec![Text::default(); len]);
        let ((mut b, mut b_ends), (mut c, mut c_ends)) = (buffer(), buffer());
        let exports = self.exports;
        let mut run = || exports.print(&inputs.first, &mut a, &mut spans);
        let proved: Option<&mut dyn FnMut()> = if is_proved { Some(&mut run) } else { None };
        let row = self.row(
            len,
            proved,
            &mut || erased(&inputs.first_erased, &mut b, &mut b_ends),
            &mut || theirs(&inputs.first_theirs, &mut c, &mut c_ends),
        );
        let text = |bytes: &[u8], ends: &[usize], i: usize| {
            let start = if i == 0 { 0 } else { ends[i - 1] };
            bytes[start..ends[i]].to_vec()
        };
        let proved = |i: usize| a[spans[i].span.start..spans[i].span.end].to_vec();
        let all: Vec<_> = (0..len)
            .map(|i| (inputs.fields[i], Some(i).filter(|_| is_proved).map(proved), text(&b, &b_ends, i), text(&c, &c_ends, i)))
            .collect();
        self.ended(call, kind, row, &all, |_| false);
    }
}

/// The fractions in lowest terms. But equal denominators stay equal.
fn lowest(kind: &str, fields: &Fields) -> Fields {
    if kind == "equal denominators" {
        return *fields;
    }
    let (x, y) = (Ratio::new(fields[0], fields[1]), Ratio::new(fields[2], fields[3]));
    [*x.numer(), *x.denom(), *y.numer(), *y.denom()]
}

/// Whether the least common denominator and both numerators over it fit, and the divisor is not 0.
fn remainder_held(bits: u32, fields: &Fields) -> bool {
    let [a, b, c, d] = *fields;
    let held = |n: i128| bits == 128 || (n < 1 << (bits - 1) && n >= -(1 << (bits - 1)));
    let common = b / num_integer::Integer::gcd(&b, &d);
    let scaled = || {
        let common = common.checked_mul(d)?;
        Some([common, a.checked_mul(common / b)?, c.checked_mul(common / d)?])
    };
    c != 0 && scaled().map_or(false, |all| all.iter().all(|n| held(*n)))
}
