//! How a struct of settings is changed: it may get more fields, so no program outside names them all.

/// Functions that set one field each, such as `with_k`.
macro_rules! setters {
    ($type:ident: $($setter:ident $field:ident: $of:ty,)*) => {
        impl $type {
            $(
                #[doc = concat!("Sets [`", stringify!($field), "`](", stringify!($type), "::", stringify!($field), ").")]
                #[must_use]
                pub const fn $setter(mut self, $field: $of) -> $type {
                    self.$field = $field;
                    self
                }
            )*
        }
    };
}
