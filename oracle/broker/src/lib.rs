//! The original's broker crate: lib.rs, error.rs and types.rs as they are, copied at build time.

include!(concat!(env!("OUT_DIR"), "/root.rs"));
pub use original::*;

/// Stand-in: audit.rs names the type of a fill in two functions that nothing here calls.
pub mod ibkr {
    pub mod orders {
        pub struct OrderResult {
            pub symbol: nanobook::Symbol,
            pub order_id: i32,
            pub filled_shares: i64,
            pub avg_fill_price: f64,
            pub commission: f64,
            pub status: crate::OrderState,
        }
    }
}

/// The bytes that were compiled: module, bytes.
pub const COMPILED: [(&str, &[u8]); 3] = [
    ("types", include_bytes!(concat!(env!("OUT_DIR"), "/types.rs"))),
    ("error", include_bytes!(concat!(env!("OUT_DIR"), "/error.rs"))),
    ("lib", include_bytes!(concat!(env!("OUT_DIR"), "/lib.rs"))),
];
