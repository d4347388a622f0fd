//! Stand-in for `alloy`: the fixed-width byte types, compared as big-endian
//! numbers.

pub mod primitives {
    macro_rules! bytes_type {
        ($name:ident, $width:literal) => {
            #[derive(Clone, Copy, Debug, Default, PartialEq, Eq, PartialOrd, Ord, Hash)]
            pub struct $name(pub [u8; $width]);
        };
    }

    bytes_type!(Address, 20);
    bytes_type!(B256, 32);
    bytes_type!(U256, 32);

    pub type StorageValue = U256;

    /// A byte string.
    #[derive(Clone, Debug, Default, PartialEq, Eq)]
    pub struct Bytes(pub Vec<u8>);

    impl Bytes {
        pub fn copy_from_slice(bytes: &[u8]) -> Self {
            Self(bytes.to_vec())
        }
    }

    impl std::ops::Deref for Bytes {
        type Target = [u8];
        fn deref(&self) -> &[u8] {
            &self.0
        }
    }
}
