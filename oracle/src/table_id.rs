//! What the three kinds of table ids have in common. They stay separate types, as in parity-db.

/// Makes a table id of a `u16` that has an overlay of its own for each number. `$overlays` is the
/// name under which log.rs asks that kind for the number of overlays. `$field` is one that an id
/// need not have.
macro_rules! table_id {
    ($name:ident, $overlays:ident $(, $field:ident: $type:ty)?) => {
        #[derive(Debug, Clone, Copy, PartialEq, Eq, Hash)]
        pub struct $name {
            number: u16,
            $($field: Option<$type>,)?
        }

        impl $name {
            pub fn from_u16(number: u16) -> Self {
                $name { number, $($field: None,)? }
            }

            pub fn as_u16(&self) -> u16 {
                self.number
            }

            pub fn log_index(&self) -> usize {
                self.number as usize
            }

            pub fn from_log_index(place: usize) -> Self {
                Self::from_u16(place as u16)
            }

            pub fn $overlays(_columns: usize) -> usize {
                1 << 16
            }
        }

        impl std::fmt::Display for $name {
            fn fmt(&self, f: &mut std::fmt::Formatter) -> std::fmt::Result {
                write!(f, "{}", self.number)
            }
        }
    };
}
pub(crate) use table_id;
