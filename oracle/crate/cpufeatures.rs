//! Stand-in for the crate `cpufeatures`: no processor has what is asked for.

/// A module that answers "no" for a feature.
#[macro_export]
macro_rules! new {
    ($name:ident, $feature:literal) => {
        mod $name {
            #[derive(Clone, Copy, Debug)]
            pub struct InitToken;

            impl InitToken {
                pub fn get(&self) -> bool {
                    false
                }
            }

            pub fn init() -> InitToken {
                InitToken
            }
        }
    };
}
