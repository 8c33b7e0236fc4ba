//! Flag sets with the methods and the texts that bitflags 2 gives those of nix.

/// Makes a flag set of `c_int`: a doc, a name and its bits for each flag.
macro_rules! flag_set {
    ($(#[$of_set:meta])* pub struct $set:ident { $($(#[$of_flag:meta])* $flag:ident = $bits:expr;)* }) => {
        $(#[$of_set])*
        #[derive(Clone, Copy, Debug, Eq, Hash, Ord, PartialEq, PartialOrd)]
        #[repr(transparent)]
        pub struct $set($crate::bits::Bits<$set>);

        #[allow(non_upper_case_globals, reason = "the names are those of C")]
        impl $set {
            $($(#[$of_flag])* pub const $flag: $set = $set::from_bits_retain($bits);)*
        }

        impl $crate::bits::Flags for $set {
            const FLAGS: &'static [(&'static str, i32)] = &[$((stringify!($flag), $bits)),*];
        }

        $crate::bits::flag_set_methods! { $set }
        $crate::bits::flag_set_operators! { $set }
    };
}

macro_rules! flag_set_methods {
    ($set:ident) => {
        impl $set {
            /// No flag.
            pub const fn empty() -> $set {
                $set::from_bits_retain(0)
            }

            /// Every flag that has a name.
            pub const fn all() -> $set {
                $set::from_bits_retain($crate::bits::all_of(<$set as $crate::bits::Flags>::FLAGS))
            }

            /// The bits.
            pub const fn bits(&self) -> i32 {
                self.0.number
            }

            /// The set of these bits, `None` where one of them has no name.
            pub const fn from_bits(bits: i32) -> Option<$set> {
                if bits & !$set::all().bits() == 0 { Some($set::from_bits_retain(bits)) } else { None }
            }

            /// The set of those bits that have a name.
            pub const fn from_bits_truncate(bits: i32) -> $set {
                $set::from_bits_retain(bits & $set::all().bits())
            }

            /// The set of these bits, also where they have no name.
            pub const fn from_bits_retain(bits: i32) -> $set {
                $set($crate::bits::Bits::new(bits))
            }

            /// The flag of this name.
            pub fn from_name(name: &str) -> Option<$set> {
                let named = <$set as $crate::bits::Flags>::FLAGS.iter().find(|flag| flag.0 == name);
                named.map(|flag| $set::from_bits_retain(flag.1))
            }

            /// Whether there is no bit.
            pub const fn is_empty(&self) -> bool {
                self.bits() == 0
            }

            /// Whether each flag that has a name is there.
            pub const fn is_all(&self) -> bool {
                $set::all().bits() & !self.bits() == 0
            }

            /// Whether a bit is in both.
            pub const fn intersects(&self, other: $set) -> bool {
                self.bits() & other.bits() != 0
            }

            /// Whether each bit of the other is here.
            pub const fn contains(&self, other: $set) -> bool {
                self.bits() & other.bits() == other.bits()
            }

            /// Adds the bits of the other.
            pub const fn insert(&mut self, other: $set) {
                *self = self.union(other);
            }

            /// Takes the bits of the other away.
            pub const fn remove(&mut self, other: $set) {
                *self = self.difference(other);
            }

            /// Adds those bits of the other that are not here, and takes away those that are.
            pub const fn toggle(&mut self, other: $set) {
                *self = self.symmetric_difference(other);
            }

            /// Adds the bits of the other, or takes them away.
            pub const fn set(&mut self, other: $set, value: bool) {
                *self = if value { self.union(other) } else { self.difference(other) };
            }

            /// The bits of both.
            pub const fn intersection(self, other: $set) -> $set {
                $set::from_bits_retain(self.bits() & other.bits())
            }

            /// The bits of either.
            pub const fn union(self, other: $set) -> $set {
                $set::from_bits_retain(self.bits() | other.bits())
            }

            /// The bits that the other has not.
            pub const fn difference(self, other: $set) -> $set {
                $set::from_bits_retain(self.bits() & !other.bits())
            }

            /// The bits of one of them alone.
            pub const fn symmetric_difference(self, other: $set) -> $set {
                $set::from_bits_retain(self.bits() ^ other.bits())
            }

            /// The flags with a name that are not here.
            pub const fn complement(self) -> $set {
                $set::from_bits_truncate(!self.bits())
            }

            /// The flags in the order of their declaration, and then the bits without a name, if there are any.
            pub fn iter(&self) -> impl Iterator<Item = $set> + use<> {
                $crate::bits::parts_of(<$set as $crate::bits::Flags>::FLAGS, self.bits())
                    .map(|part| $set::from_bits_retain(part.1))
            }

            /// The flags that have a name, with it, in the order of their declaration.
            pub fn iter_names(&self) -> impl Iterator<Item = (&'static str, $set)> + use<> {
                $crate::bits::parts_of(<$set as $crate::bits::Flags>::FLAGS, self.bits())
                    .filter_map(|part| part.0.map(|name| (name, $set::from_bits_retain(part.1))))
            }
        }
    };
}

macro_rules! flag_set_operators {
    ($set:ident) => {
        $crate::bits::flag_set_operators! { $set, BitOr bitor BitOrAssign bitor_assign union }
        $crate::bits::flag_set_operators! { $set, BitAnd bitand BitAndAssign bitand_assign intersection }
        $crate::bits::flag_set_operators! { $set, BitXor bitxor BitXorAssign bitxor_assign symmetric_difference }
        $crate::bits::flag_set_operators! { $set, Sub sub SubAssign sub_assign difference }

        impl std::ops::Not for $set {
            type Output = $set;
            fn not(self) -> $set {
                self.complement()
            }
        }

        impl Extend<$set> for $set {
            fn extend<T: IntoIterator<Item = $set>>(&mut self, sets: T) {
                sets.into_iter().for_each(|set| self.insert(set));
            }
        }

        impl FromIterator<$set> for $set {
            fn from_iter<T: IntoIterator<Item = $set>>(sets: T) -> $set {
                sets.into_iter().fold($set::empty(), $set::union)
            }
        }

        impl IntoIterator for $set {
            type Item = $set;
            type IntoIter = std::vec::IntoIter<$set>;
            fn into_iter(self) -> Self::IntoIter {
                self.iter().collect::<Vec<$set>>().into_iter()
            }
        }

        $crate::bits::flag_set_operators! { $set, shown by Binary Octal LowerHex UpperHex }
    };
    ($set:ident, shown by $($base:ident)*) => {
        $(impl std::fmt::$base for $set {
            fn fmt(&self, formatter: &mut std::fmt::Formatter<'_>) -> std::fmt::Result {
                std::fmt::$base::fmt(&self.bits(), formatter)
            }
        })*
    };
    ($set:ident, $operator:ident $method:ident $assign:ident $assign_method:ident $by:ident) => {
        impl std::ops::$operator for $set {
            type Output = $set;
            fn $method(self, other: $set) -> $set {
                self.$by(other)
            }
        }

        impl std::ops::$assign for $set {
            fn $assign_method(&mut self, other: $set) {
                *self = self.$by(other);
            }
        }
    };
}

pub(crate) use {flag_set, flag_set_methods, flag_set_operators};

use std::fmt;
use std::marker::PhantomData;

/// The names and bits of a set's flags, in the order of their declaration.
pub(crate) trait Flags {
    const FLAGS: &'static [(&'static str, i32)];
}

/// The bits of a set, which are shown by its flags' names.
#[derive(Eq, Hash, Ord, PartialEq, PartialOrd)]
pub(crate) struct Bits<Set> {
    pub(crate) number: i32,
    set: PhantomData<Set>,
}

impl<Set> Bits<Set> {
    pub(crate) const fn new(number: i32) -> Bits<Set> {
        Bits { number, set: PhantomData }
    }
}

impl<Set> Clone for Bits<Set> {
    fn clone(&self) -> Bits<Set> {
        *self
    }
}

impl<Set> Copy for Bits<Set> {}

impl<Set: Flags> fmt::Debug for Bits<Set> {
    fn fmt(&self, formatter: &mut fmt::Formatter<'_>) -> fmt::Result {
        if self.number == 0 {
            return formatter.write_str("0x0");
        }
        for (place, part) in parts_of(Set::FLAGS, self.number).enumerate() {
            if place > 0 {
                formatter.write_str(" | ")?;
            }
            match part {
                (Some(name), _) => formatter.write_str(name)?,
                (None, bits) => write!(formatter, "{bits:#x}")?,
            }
        }
        Ok(())
    }
}

/// The bits of all flags.
pub(crate) const fn all_of(flags: &[(&str, i32)]) -> i32 {
    let (mut all, mut place) = (0, 0);
    while place < flags.len() {
        all |= flags[place].1;
        place += 1;
    }
    all
}

/// A set's flags, each bit once: of two names for the same bits the first. Last come the bits that have no name.
pub(crate) fn parts_of(
    flags: &'static [(&'static str, i32)],
    bits: i32,
) -> impl Iterator<Item = (Option<&'static str>, i32)> {
    let mut rest = bits;
    let mut parts = Vec::new();
    for &(name, flag) in flags {
        if bits & flag == flag && rest & flag != 0 {
            rest &= !flag;
            parts.push((Some(name), flag));
        }
    }
    if rest != 0 {
        parts.push((None, rest));
    }
    parts.into_iter()
}

#[cfg(test)]
mod tests {
    use crate::sys::ptrace::Options;
    use crate::sys::wait::WaitPidFlag;

    #[test]
    fn a_set_is_shown_by_its_names() {
        for (set, text) in [
            (WaitPidFlag::empty(), "WaitPidFlag(0x0)"),
            (WaitPidFlag::WNOHANG | WaitPidFlag::__WALL, "WaitPidFlag(WNOHANG | __WALL)"),
            (WaitPidFlag::WSTOPPED, "WaitPidFlag(WUNTRACED)"),
            (WaitPidFlag::from_bits_retain(0x21), "WaitPidFlag(WNOHANG | 0x20)"),
        ] {
            assert_eq!(format!("{set:?}"), text);
        }
    }

    #[test]
    fn bits_without_a_name_are_refused_cut_or_kept() {
        assert_eq!(WaitPidFlag::from_bits(0x21), None);
        assert_eq!(WaitPidFlag::from_bits_truncate(0x21), WaitPidFlag::WNOHANG);
        assert_eq!(WaitPidFlag::from_bits_retain(0x21).bits(), 0x21);
        assert_eq!(WaitPidFlag::from_bits(0x8000_0000_u32 as i32), Some(WaitPidFlag::__WCLONE));
    }

    #[test]
    fn sets_are_added_and_taken_away() {
        let (good, fork) = (Options::PTRACE_O_TRACESYSGOOD, Options::PTRACE_O_TRACEFORK);
        let mut both = good | fork;
        assert!(both.contains(good) && both.intersects(fork) && !both.is_all() && !both.is_empty());
        assert_eq!((both - good, both & fork, both ^ fork, !both | both), (fork, fork, good, Options::all()));
        both.set(fork, false);
        assert_eq!(both, good);
        both.toggle(good | fork);
        both |= Options::empty();
        assert_eq!(both, fork);
        assert_eq!((good | fork).iter().collect::<Vec<_>>(), [good, fork]);
        assert_eq!(both.iter_names().next(), Some(("PTRACE_O_TRACEFORK", fork)));
        assert_eq!(Options::from_name("PTRACE_O_TRACEFORK"), Some(fork));
        assert_eq!([good, fork].into_iter().collect::<Options>(), good | fork);
        assert_eq!(format!("{:#x} {:b}", good | fork, fork), "0x3 10");
    }
}
