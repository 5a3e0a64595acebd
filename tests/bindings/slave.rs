//! The slave of the C interface. The tests keep a slave as the other implementation has it; only what is handed to the proved code is one of these.

use crate::other::slave::Slave;

c_struct! {
    /// The settings of a start.
    CBoard { profile: u8, n: u16, site: u16, tad: u32, }
}

c_struct! {
    /// The settings in force.
    CSettings { od: i16, power: u16, frequency: i32, }
}

c_struct! {
    /// Where the slave stands in its cadence.
    CCount { phase: u8, next: u16, index: u8, coasted: u8, }
}

c_struct! {
    /// The notice that waits for its mark.
    CWaiting { pending: u8, sts: u32, md: u32, }
}

c_struct! {
    CSlave { board: CBoard, settings: CSettings, count: CCount, waiting: CWaiting, }
}

impl From<Slave> for CSlave {
    fn from(s: Slave) -> CSlave {
        let Slave { phase, profile, n, site, tad, od, frequency, power, next, pending, index, sts, md, coasted } = s;
        CSlave {
            board: CBoard { profile, n, site, tad },
            settings: CSettings { od, frequency, power },
            count: CCount { phase, next, index, coasted },
            waiting: CWaiting { pending, sts, md },
        }
    }
}

impl From<CSlave> for Slave {
    fn from(s: CSlave) -> Slave {
        let CSlave { board, settings, count, waiting } = s;
        let CBoard { profile, n, site, tad } = board;
        let CSettings { od, frequency, power } = settings;
        let CCount { phase, next, index, coasted } = count;
        let CWaiting { pending, sts, md } = waiting;
        Slave { phase, profile, n, site, tad, od, frequency, power, next, pending, index, sts, md, coasted }
    }
}
