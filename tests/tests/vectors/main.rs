//! Examples from the documents, run on the library through its C interface and
//! through the methods of its bindings, on the plain reference, and on the fast
//! and the in-place implementation: document 01's, then those of each change of
//! document 02.
mod base_node;
mod base_scenes;
mod base_sources;
mod change_1;
mod change_2;
mod change_3;
mod change_4;
mod common;
