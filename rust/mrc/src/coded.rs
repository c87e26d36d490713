/// An enum whose variants, in their order, have the codes 0, 1, 2 and so on at the boundary.
macro_rules! coded {
    ($(#[$about:meta])* $access:vis enum $name:ident { $($(#[$of:meta])* $variant:ident),* $(,)? }) => {
        $(#[$about])*
        #[derive(Clone, Copy, Debug, PartialEq, Eq, Hash)]
        $access enum $name { $($(#[$of])* $variant),* }

        impl $name {
            #[allow(dead_code)]
            pub(crate) const ALL: &'static [Self] = &[$(Self::$variant),*];

            #[inline]
            pub(crate) fn from_code(code: u8) -> Self {
                match code {
                    $(_ if code == Self::$variant as u8 => Self::$variant,)*
                    _ => panic!("no {} has the code {code}", stringify!($name)),
                }
            }
        }
    };
}

pub(crate) use coded;
