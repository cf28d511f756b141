//! What programs rest on beside the library's own answers: forms by name, places in a stream, refusals as errors, stored states, vectors, years, days, the kinds of a field, the runs of seconds of two racks.

mod dates;
mod forms;
mod frames;
mod kinds;
mod places;
mod racks;
mod refusals;
mod rmc;
mod runs;
mod sat;
mod states;
mod tables;
mod writing;
