//! The original's rebalancer: recovery.rs, audit.rs, reconcile.rs, diff.rs and clock_skew.rs as they are, copied at build
//! time, with write_ahead_logging on. The modules written here are the smallest stand-ins for what those files name.

// The original says `std::thread::sleep`; under this name the pause costs no time.
extern crate nosleep as std;

include!(concat!(env!("OUT_DIR"), "/root.rs"));

pub mod error {
    #[derive(Debug)]
    pub enum Error {
        AuditValidation(String),
        Recovery(String),
        AuditPathOutsideWorkdir { path: std::path::PathBuf },
        Audit(std::io::Error),
    }

    pub type Result<T> = std::result::Result<T, Error>;

    impl From<std::io::Error> for Error {
        fn from(error: std::io::Error) -> Error {
            Error::Audit(error)
        }
    }

    impl std::fmt::Display for Error {
        fn fmt(&self, f: &mut std::fmt::Formatter<'_>) -> std::fmt::Result {
            write!(f, "{self:?}")
        }
    }
}

pub mod config {
    pub struct Config(pub std::path::PathBuf);

    impl Config {
        pub fn audit_path(&self) -> std::path::PathBuf {
            self.0.clone()
        }
    }
}

pub mod target {
    pub struct TargetSpec;
}

pub mod risk {
    pub struct Check {
        pub name: String,
        pub status: String,
        pub detail: String,
    }

    pub struct RiskReport {
        pub checks: Vec<Check>,
    }

    impl RiskReport {
        pub fn has_failures(&self) -> bool {
            false
        }
    }
}

/// The bytes that were compiled: module, bytes.
pub const COMPILED: [(&str, &[u8]); 5] = [
    ("recovery", include_bytes!(concat!(env!("OUT_DIR"), "/recovery.rs"))),
    ("audit", include_bytes!(concat!(env!("OUT_DIR"), "/audit.rs"))),
    ("reconcile", include_bytes!(concat!(env!("OUT_DIR"), "/reconcile.rs"))),
    ("diff", include_bytes!(concat!(env!("OUT_DIR"), "/diff.rs"))),
    ("clock_skew", include_bytes!(concat!(env!("OUT_DIR"), "/clock_skew.rs"))),
];
