//! The library, through its C interface.

use std::ptr;

use crate::calls::Calls;
use crate::each_call;

// An empty slice is lent as null, as a caller in C may do.
#[inline]
fn lent<T>(slice: &[T]) -> *const T {
    if slice.is_empty() {
        ptr::null()
    } else {
        slice.as_ptr()
    }
}

#[inline]
fn lent_mut<T>(slice: &mut [T]) -> *mut T {
    if slice.is_empty() {
        ptr::null_mut()
    } else {
        slice.as_mut_ptr()
    }
}

/// The calls as the library answers them.
#[derive(Clone, Copy, Debug, Default)]
pub struct Library;

// Declares a function of the library and calls it. The arguments of the table are taken one by one;
// of a slice both the types and the values are two, a pointer and a length.
//
// Safety: every pointer comes from a slice that lives through the call, with that slice's own
// length, or is null with no entries, and no two slices that are lent together overlap where one of
// them may be written.
macro_rules! call {
    ($name:ident ($($type:ty,)*) ($($value:expr,)*)) => {{
        extern "C" {
            #[link_name = concat!("itz_", stringify!($name))]
            fn $name($(_: $type),*) -> u64;
        }
        unsafe { $name($($value),*) }
    }};
    ($name:ident ($($type:ty,)*) ($($value:expr,)*) $number:ident: u64, $($rest:tt)*) => {
        call!($name ($($type,)* u64,) ($($value,)* $number,) $($rest)*)
    };
    ($name:ident ($($type:ty,)*) ($($value:expr,)*) $slice:ident: &[$entry:ty], $($rest:tt)*) => {
        call!(
            $name ($($type,)* *const $entry, usize,) ($($value,)* lent($slice), $slice.len(),)
            $($rest)*
        )
    };
    ($name:ident ($($type:ty,)*) ($($value:expr,)*) $slice:ident: &mut [$entry:ty], $($rest:tt)*) => {
        call!(
            $name ($($type,)* *mut $entry, usize,) ($($value,)* lent_mut($slice), $slice.len(),)
            $($rest)*
        )
    };
}

macro_rules! the_library {
    ($($name:ident($($arguments:tt)*);)*) => {
        impl Calls for Library {
            $(#[inline]
            fn $name(&self, $($arguments)*) -> u64 {
                call!($name () () $($arguments)*,)
            })*
        }
    };
}

each_call!(the_library);
