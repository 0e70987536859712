//! A second opinion: the rules of the network written down once more, plainly
//! and apart from the program under test, with a generator of jobs and the
//! means to compare that program's answers with the ones given here.

pub mod block;
pub mod compare;
pub mod damage;
pub mod draft;
pub mod frame;
pub mod job;
pub mod jobs;
pub mod network;
pub mod random;
pub mod rules;
pub mod shapes;
