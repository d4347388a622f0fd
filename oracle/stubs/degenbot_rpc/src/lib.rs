//! Stand-in for `degenbot_rpc`: a provider that is never asked. The oracle
//! settles rounds itself, so every request here fails.

pub mod provider {
    use alloy::primitives::{Address, Bytes, StorageValue, B256, U256};
    use degenbot_core::errors::{ProviderError, ProviderResult};

    #[derive(Clone, Debug, Default, PartialEq, Eq)]
    pub struct AccountRead;

    pub enum BlockAccessListResponse {
        Raw(Bytes),
        Json(serde_json::Value),
    }

    #[derive(Clone, Debug, Default)]
    pub struct AlloyProvider;

    fn not_asked<T>() -> ProviderResult<T> {
        Err(ProviderError("the stubbed provider answers nothing".into()))
    }

    impl AlloyProvider {
        pub async fn get_block_access_list(
            &self,
            _block_hash: B256,
        ) -> ProviderResult<BlockAccessListResponse> {
            not_asked()
        }

        pub async fn get_storage_batch_results_at(
            &self,
            _keys: &[(Address, U256)],
            _number: u64,
        ) -> ProviderResult<Vec<ProviderResult<StorageValue>>> {
            not_asked()
        }

        pub async fn get_accounts_batch_at(
            &self,
            _addresses: &[Address],
            _number: u64,
        ) -> ProviderResult<Vec<ProviderResult<AccountRead>>> {
            not_asked()
        }
    }
}
