//! The reference: six files compiled unchanged, and stand-ins for what they lean on.
#![allow(dead_code)]

include!(concat!(env!("OUT_DIR"), "/files.rs"));

pub use activation::{ActLowerError, ActivationDef};
pub use state_machine::StateMachineDef;

/// Named by `Expr::at` only.
pub mod diag {
    pub struct SourceSpan;
}

/// The version mark of saved files; nothing is saved here.
pub mod format {
    use serde::{Deserialize, Serialize};

    #[derive(Debug, Clone, PartialEq, Default, Serialize, Deserialize)]
    pub struct CurrentFormat;
}

/// Provenance of imported projects; always absent here.
pub mod native_project {
    #[derive(Debug, Clone, PartialEq)]
    pub struct NativeResolution {
        pub root_project_id: String,
        pub projects: Vec<NativeProject>,
        pub symbols: Vec<NativeSymbol>,
    }

    #[derive(Debug, Clone, PartialEq)]
    pub struct NativeProject {
        pub project_id: String,
        pub dependencies: Vec<NativeDependency>,
    }

    #[derive(Debug, Clone, PartialEq)]
    pub struct NativeDependency {
        pub alias: String,
        pub project_id: String,
    }

    #[derive(Debug, Clone, PartialEq)]
    pub struct NativeSymbol {
        pub project_id: String,
        pub kind: String,
        pub local_name: String,
        pub resolved_name: String,
        pub exported: bool,
    }
}

/// Slicing is no part of either lowering.
pub mod slice {
    use crate::project::Project;

    pub fn slice_for_root(_project: &Project, _root: &str) -> Result<Project, String> {
        Err("no slicing here".into())
    }
}
