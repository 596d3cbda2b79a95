//! What an engine has to keep, so that its data is safe and no call is refused without need. Links lead to
//! other documents of a release, in its folder `docs`.
//!
#![doc = include_str!(env!("HOJZMATED_RULES"))]
