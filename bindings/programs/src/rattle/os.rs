//! What Unix has of files beside all systems.
pub mod unix {
    pub mod fs {
        #[cfg(not(unix))]
        pub use super::other::MetadataExt;
        #[cfg(unix)]
        pub use std::os::unix::fs::MetadataExt;

        pub trait OpenOptionsExt {}
        pub trait DirBuilderExt {}
    }

    /// On systems whose std has no numbers of files, each file has another, so that no two are known to be the same.
    #[cfg(not(unix))]
    mod other {
        use std::sync::atomic::{AtomicU64, Ordering};

        static NEXT: AtomicU64 = AtomicU64::new(0);

        pub trait MetadataExt {
            fn dev(&self) -> u64 {
                0
            }

            fn ino(&self) -> u64 {
                NEXT.fetch_add(1, Ordering::Relaxed)
            }
        }

        impl MetadataExt for std::fs::Metadata {}
    }
}
