//! The command run as a person runs it.

mod answers;
mod bring_up;
mod check;
mod demo;
mod describe;
mod desk;
mod double_camera;
mod fresh;
mod plan;
mod show;
mod sleep;
mod stations;
mod trace;
mod usage;
mod versions;
mod write;
