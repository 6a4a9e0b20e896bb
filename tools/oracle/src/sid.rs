//! The original, byte for byte as it stands in its folder, except for its filter.
//!
//! Privacy is by module: a file of `observe/` included beside an original reads and builds that
//! original's private fields.

pub mod constants {
    include!(concat!(env!("SID_SOURCE"), "/constants.rs"));
}

pub mod bus {
    include!(concat!(env!("SID_SOURCE"), "/bus.rs"));
    include!("observe/bus.rs");
}

pub mod envelope {
    include!(concat!(env!("SID_SOURCE"), "/envelope.rs"));
    include!("observe/envelope.rs");
}

pub mod oscillator {
    include!(concat!(env!("SID_SOURCE"), "/oscillator.rs"));
    include!("observe/oscillator.rs");
}

pub mod waveforms {
    include!(concat!(env!("SID_SOURCE"), "/waveforms.rs"));
    include!("observe/waveforms.rs");
}

// The original's own name for it.
#[allow(clippy::module_inception)]
pub mod sid {
    include!(concat!(env!("SID_SOURCE"), "/sid.rs"));
    include!("observe/sid.rs");
}

mod dac {
    include!(concat!(env!("SID_SOURCE"), "/dac.rs"));
}

mod tables {
    include!(concat!(env!("SID_SOURCE"), "/tables.rs"));
}

mod integrator {
    include!(concat!(env!("SID_SOURCE"), "/integrator.rs"));
}

mod filter;
