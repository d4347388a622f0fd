//! Stand-in for `degenbot_core`: the provider's error.

pub mod errors {
    use std::fmt;

    #[derive(Clone, Debug, PartialEq, Eq)]
    pub struct ProviderError(pub String);

    impl fmt::Display for ProviderError {
        fn fmt(&self, f: &mut fmt::Formatter<'_>) -> fmt::Result {
            f.write_str(&self.0)
        }
    }

    impl std::error::Error for ProviderError {}

    pub type ProviderResult<T> = Result<T, ProviderError>;
}
