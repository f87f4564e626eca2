//! Which of the twelve machine types a type is. A generic call asks this, and then calls the proved code of that type.
//!
//! The question has its answer when the call is compiled, so nothing of it is left in an optimized program. Safe Rust cannot ask it: `Any`
//! takes no type with a lifetime, and num-rational's bounds allow these.
use super::integer::Integer;
use super::ratio::Ratio;
use core::any::TypeId;
use core::marker::PhantomData;
use core::mem;

/// A type's name, or `None` for a type that cannot be a machine type.
#[inline(always)]
pub(super) fn name<T>() -> Option<TypeId> {
    trait Named {
        fn name(&self) -> TypeId
        where
            Self: 'static;
    }

    impl<T> Named for PhantomData<T> {
        #[inline(always)]
        fn name(&self) -> TypeId
        where
            Self: 'static,
        {
            TypeId::of::<T>()
        }
    }

    if mem::needs_drop::<T>() || mem::size_of::<T>() > mem::size_of::<u128>() {
        return None;
    }
    // SAFETY: only the lifetimes of the type are made longer. A name has no lifetimes, and nothing but the name leaves this function.
    let named = unsafe { mem::transmute::<&dyn Named, &(dyn Named + 'static)>(&PhantomData::<T>) };
    Some(named.name())
}

/// `T` is the machine type `P`. Only `of` makes it.
pub(super) struct Same<T, P>(PhantomData<(T, P)>);

impl<T, P: Integer + 'static> Same<T, P> {
    /// `name` is the name of `T`. A machine type has no lifetimes, so another type of its name is itself.
    #[inline(always)]
    pub(super) fn of(name: TypeId) -> Option<Same<T, P>> {
        if mem::size_of::<T>() == mem::size_of::<P>() && name == TypeId::of::<P>() {
            Some(Same(PhantomData))
        } else {
            None
        }
    }

    #[inline(always)]
    pub(super) fn number(&self, number: &T) -> P {
        // SAFETY: `T` is `P`, which is `Copy`.
        unsafe { mem::transmute_copy(number) }
    }

    #[inline(always)]
    pub(super) fn number_back(&self, number: P) -> T {
        // SAFETY: `T` is `P`, which is `Copy`.
        unsafe { mem::transmute_copy(&number) }
    }

    #[inline(always)]
    pub(super) fn fraction<'a>(&self, fraction: &'a Ratio<T>) -> &'a Ratio<P> {
        // SAFETY: `T` is `P`.
        unsafe { &*(fraction as *const Ratio<T>).cast() }
    }

    #[inline(always)]
    pub(super) fn back(&self, fraction: Ratio<P>) -> Ratio<T> {
        let (numer, denom) = fraction.into_raw();
        Ratio::new_raw(self.number_back(numer), self.number_back(denom))
    }

    #[inline(always)]
    pub(super) fn back_if<E: Copy>(&self, fraction: Result<Ratio<P>, E>) -> Result<Ratio<T>, E> {
        // SAFETY: `T` is `P`, and a `Result` of `Copy` types is `Copy`, too.
        unsafe { mem::transmute_copy(&fraction) }
    }
}

/// `on_machine!(T, same => CALL)` returns what the call returns, if `T` is a machine type `P`. There `same` is the `Same<T, P>`.
macro_rules! on_machine {
    ($T:ident, $same:ident => $call:expr) => {
        crate::layer::same::on_machine! { $T, $same => $call; i8 i16 i32 i64 i128 isize u8 u16 u32 u64 u128 usize }
    };
    ($T:ident, $same:ident => $call:expr; $($Machine:ident)*) => {
        if let Some(name) = crate::layer::same::name::<$T>() {
            $(
                if let Some($same) = crate::layer::same::Same::<$T, $Machine>::of(name) {
                    return $call;
                }
            )*
        }
    };
}

pub(super) use on_machine;

#[cfg(test)]
mod tests {
    use super::{name, Ratio, Same};

    #[allow(dead_code)]
    struct Tagged<'a>(i64, PhantomTag<'a>);
    type PhantomTag<'a> = core::marker::PhantomData<&'a str>;

    fn is_i64<T>() -> bool {
        name::<T>().and_then(Same::<T, i64>::of).is_some()
    }

    fn with_lifetime<'a>(_: &'a str) -> bool {
        is_i64::<Tagged<'a>>() || is_i64::<&'a i64>()
    }

    #[test]
    fn only_the_type_itself() {
        assert!(is_i64::<i64>());
        assert!(![is_i64::<u64>(), is_i64::<isize>(), is_i64::<f64>(), is_i64::<[i32; 2]>(), is_i64::<Option<u32>>()].contains(&true));
        assert!(!is_i64::<std::string::String>() && !is_i64::<&'static str>() && !with_lifetime("x"));
    }

    #[test]
    fn there_and_back() {
        let same = name::<i128>().and_then(Same::<i128, i128>::of).unwrap();
        assert_eq!([i128::MIN, -1, i128::MAX].map(|x| same.number_back(same.number(&x))), [i128::MIN, -1, i128::MAX]);
        let fraction = Ratio::new_raw(i128::MIN, -5);
        assert_eq!(same.back(*same.fraction(&fraction)).into_raw(), (i128::MIN, -5));
        assert_eq!([Ok(fraction), Err(7)].map(|x| same.back_if(x).map(Ratio::into_raw)), [Ok((i128::MIN, -5)), Err(7)]);
    }

    /// Whether a call takes the proved code.
    fn is_machine<T>() -> bool {
        on_machine!(T, _same => true);
        false
    }

    #[test]
    fn each_machine_type() {
        assert!([is_machine::<i8>(), is_machine::<i16>(), is_machine::<i32>(), is_machine::<i64>(), is_machine::<i128>(), is_machine::<isize>()] == [true; 6]);
        assert!([is_machine::<u8>(), is_machine::<u16>(), is_machine::<u32>(), is_machine::<u64>(), is_machine::<u128>(), is_machine::<usize>()] == [true; 6]);
        assert!([is_machine::<bool>(), is_machine::<char>(), is_machine::<f32>(), is_machine::<f64>(), is_machine::<[u64; 2]>(), is_machine::<()>()] == [false; 6]);
    }
}
