//! Stand-in for the crate `bitflags` 2, which Debian has only as 1.3: as much of it as rustfst uses.

/// Sets of named bits. As in `bitflags` 2 the derived traits are named by the caller, and the
/// complement of a set holds named bits only.
#[macro_export]
macro_rules! bitflags {
    ($(#[$outer:meta])* $vis:vis struct $Name:ident: $T:ty {
        $($(#[$inner:meta])* const $Flag:ident = $value:expr;)*
    }) => {
        $(#[$outer])*
        $vis struct $Name($T);

        impl $Name {
            $($(#[$inner])* pub const $Flag: Self = Self($value);)*

            pub const fn empty() -> Self {
                Self(0)
            }
            pub const fn all() -> Self {
                Self(0 $(| Self::$Flag.0)*)
            }
            pub const fn bits(&self) -> $T {
                self.0
            }
            pub const fn from_bits_truncate(bits: $T) -> Self {
                Self(bits & Self::all().0)
            }
            pub const fn contains(&self, other: Self) -> bool {
                self.0 & other.0 == other.0
            }
        }

        $crate::operators!($Name);
    };
}

#[doc(hidden)]
#[macro_export]
macro_rules! operators {
    ($Name:ident) => {
        impl std::ops::BitOr for $Name {
            type Output = Self;
            fn bitor(self, other: Self) -> Self {
                Self(self.0 | other.0)
            }
        }
        impl std::ops::BitAnd for $Name {
            type Output = Self;
            fn bitand(self, other: Self) -> Self {
                Self(self.0 & other.0)
            }
        }
        impl std::ops::BitOrAssign for $Name {
            fn bitor_assign(&mut self, other: Self) {
                self.0 |= other.0;
            }
        }
        impl std::ops::BitAndAssign for $Name {
            fn bitand_assign(&mut self, other: Self) {
                self.0 &= other.0;
            }
        }
        impl std::ops::Not for $Name {
            type Output = Self;
            fn not(self) -> Self {
                Self::from_bits_truncate(!self.0)
            }
        }
    };
}
