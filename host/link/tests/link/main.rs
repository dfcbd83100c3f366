//! Tests of reader and gateway together.

mod conversation;
mod cut;
mod frames;
mod hostile;
mod sleeping;
mod sockets;
mod world;
