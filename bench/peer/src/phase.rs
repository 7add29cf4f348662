//! Where the two peers of a state are, and the timeout that goes with it.
use crate::packet::{ACK, FIN, RST, SYN, TCP, UDP};

const SYN_SENT: u8 = 2;
const ESTABLISHED: u8 = 4;
const CLOSING: u8 = 7;
const FIN_WAIT_2: u8 = 9;
const TIME_WAIT: u8 = 10;

#[derive(Clone, Copy)]
pub struct Phase {
    proto: u8,
    maker: u8,
    other: u8,
    pub timeout: u8,
    pub is_complete: bool,
}

impl Phase {
    pub fn new(proto: u8) -> Self {
        let (maker, timeout) = match proto {
            TCP => (SYN_SENT, 0),
            UDP => (1, 6),
            _ => (1, 9),
        };
        Phase { proto, maker, other: 0, timeout, is_complete: false }
    }

    /// Takes a later packet. Whether the handshake completes.
    pub fn step(&mut self, by_maker: bool, flags: u8) -> bool {
        let (mut sender, mut receiver) = if by_maker { (self.maker, self.other) } else { (self.other, self.maker) };
        let completes = if self.proto == TCP {
            tcp(&mut sender, &mut receiver, by_maker, flags) && !self.is_complete
        } else {
            sender = sender.max(1);
            if receiver == 1 {
                receiver = 2;
            }
            false
        };
        (self.maker, self.other) = if by_maker { (sender, receiver) } else { (receiver, sender) };
        self.is_complete |= completes;
        self.timeout = self.slot();
        completes
    }

    fn slot(&self) -> u8 {
        let (low, high) = (self.maker.min(self.other), self.maker.max(self.other));
        match self.proto {
            TCP if low >= FIN_WAIT_2 => 5,
            TCP if low >= CLOSING => 4,
            TCP if low < ESTABLISHED => 1,
            TCP if high >= CLOSING => 3,
            TCP => 2,
            UDP if low == 2 => 8,
            UDP => 7,
            _ if low == 2 => 11,
            _ => 10,
        }
    }
}

fn tcp(sender: &mut u8, receiver: &mut u8, by_maker: bool, flags: u8) -> bool {
    let mut completes = false;
    if flags & SYN != 0 && *sender < SYN_SENT {
        *sender = SYN_SENT;
    }
    if flags & FIN != 0 && *sender < CLOSING {
        *sender = CLOSING;
    }
    if flags & ACK != 0 {
        if *receiver == SYN_SENT {
            *receiver = ESTABLISHED;
            completes = *sender == ESTABLISHED;
        } else if *receiver == CLOSING {
            *receiver = FIN_WAIT_2;
        } else if *sender == SYN_SENT && *receiver < SYN_SENT {
            (*sender, *receiver) = (ESTABLISHED, ESTABLISHED);
            completes = true;
        } else if *sender == CLOSING && *receiver == ESTABLISHED && by_maker {
            *receiver = CLOSING;
        }
    }
    if flags & RST != 0 {
        (*sender, *receiver) = (TIME_WAIT, TIME_WAIT);
    }
    completes
}
