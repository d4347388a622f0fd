//! Stand-in for `serde`: the one method the reference names.

pub trait Deserialize: Sized {
    fn deserialize(value: &serde_json::Value) -> Result<Self, serde_json::Error>;
}
