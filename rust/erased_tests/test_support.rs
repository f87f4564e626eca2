//! What the erased tests need beside plain Rust.
use std::fmt;
use std::string::{String, ToString};

/// The error of a test that ends with `?`.
pub type Fail = std::boxed::Box<dyn std::error::Error>;

/// A printed text. Rattle's has an array of `N` bytes. Only tests for 64 bits print one.
#[cfg_attr(not(target_pointer_width = "64"), allow(dead_code))]
pub struct InlineText<const N: usize>(String);

#[cfg_attr(not(target_pointer_width = "64"), allow(dead_code))]
impl<const N: usize> InlineText<N> {
    pub fn of(text: fmt::Arguments<'_>) -> Self {
        InlineText(text.to_string())
    }

    pub fn as_str(&self) -> &str {
        &self.0
    }
}

/// What `format!` gives in memory.
#[cfg(feature = "alloc")]
pub fn text_of(text: fmt::Arguments<'_>) -> Result<crate::memory::String, crate::memory::AllocError> {
    crate::memory::String::from_str(crate::memory::Global, &text.to_string())
}

#[cfg(feature = "alloc")]
impl fmt::Display for crate::memory::String {
    fn fmt(&self, f: &mut fmt::Formatter<'_>) -> fmt::Result {
        f.pad(self.as_str())
    }
}

#[cfg(feature = "alloc")]
impl PartialEq for crate::memory::String {
    fn eq(&self, other: &Self) -> bool {
        self.as_str() == other.as_str()
    }
}

#[cfg(feature = "alloc")]
impl crate::memory::String {
    /// What `write!` calls.
    pub fn write_fmt(&mut self, text: fmt::Arguments<'_>) -> Result<(), crate::memory::AllocError> {
        self.push_str(&text.to_string())
    }
}

/// The crate `itoa`, as the replies call it.
pub mod itoa {
    use std::string::{String, ToString};

    pub struct Buffer(String);

    impl Buffer {
        pub fn new() -> Buffer {
            Buffer(String::new())
        }

        pub fn format(&mut self, number: impl std::fmt::Display) -> &str {
            self.0 = number.to_string();
            &self.0
        }
    }
}

/// What ends a test of expressions.
macro_rules! ends_a_test {
    ($($refusal:ty),*) => { $(
        #[cfg(feature = "std")]
        impl From<$refusal> for Fail {
            fn from(refusal: $refusal) -> Fail {
                std::format!("{:?}", refusal).into()
            }
        }
    )* };
}

ends_a_test!(crate::proved::ratio_expressions::refusal::ValueError);
