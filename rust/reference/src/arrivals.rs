//! "Arrival times known only between bounds": when a net's output settles.
//!
//! Times are whole numbers of quarter microseconds here. Only the answer converts
//! them to floats.

use crate::net::Net;

/// "An arrival is either a fixed time or an earliest and a latest, fixed when
/// `to` is `from`."
#[derive(Clone, Copy, Debug, PartialEq, Eq)]
pub enum Arrival {
    Fixed(u64),
    Between { earliest: u64, latest: u64 },
}

impl Arrival {
    pub fn of(from: u64, to: u64) -> Arrival {
        if from == to {
            return Arrival::Fixed(from);
        }
        Arrival::Between {
            earliest: from,
            latest: to,
        }
    }

    pub fn earliest(self) -> u64 {
        match self {
            Arrival::Fixed(time) => time,
            Arrival::Between { earliest, .. } => earliest,
        }
    }

    pub fn latest(self) -> u64 {
        match self {
            Arrival::Fixed(time) => time,
            Arrival::Between { latest, .. } => latest,
        }
    }
}

/// "The earliest and latest settling of the output in microseconds, as floats."
#[derive(Clone, Copy, Debug, PartialEq)]
pub struct Settling {
    pub earliest: f64,
    pub latest: f64,
}

/// "The settling time of given arrivals is the largest, over the inputs, of
/// arrival plus delay times gates on the way"; "arrival times count used inputs
/// only".
pub fn settling_time(net: &Net, arrivals: &[u64], delay: u64) -> u64 {
    let used = net.used_inputs().into_iter();
    let times = used.map(|input| arrivals[input] + delay * net.gates_on_the_way(input) as u64);
    times.max().expect("every gate refers to something")
}

/// Returns the settling when every input arrives as early as possible, and when every
/// one arrives as late as possible: a later arrival never makes the output settle
/// earlier.
pub fn settling(net: &Net, arrivals: &[Arrival], delay: u64) -> Settling {
    let settled_at = |end: fn(Arrival) -> u64| {
        let arrivals: Vec<u64> = arrivals.iter().map(|&arrival| end(arrival)).collect();
        microseconds(settling_time(net, &arrivals, delay))
    };
    Settling {
        earliest: settled_at(Arrival::earliest),
        latest: settled_at(Arrival::latest),
    }
}

/// Converts quarters to microseconds. Both the number of quarters and its fourth part
/// are floats, so nothing is rounded.
fn microseconds(quarters: u64) -> f64 {
    quarters as f64 / 4.0
}
