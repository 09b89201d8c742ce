//! Nothing: a copy of `embassy-sync` that is built without a registry has its own critical sections.
