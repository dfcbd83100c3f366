//! The numbers of peers: a socket address gets the next one when it is first heard of.

use std::net::SocketAddr;

/// Peers are 0 to 255.
const MOST: usize = 256;

#[derive(Debug, Default)]
pub struct Peers(Vec<SocketAddr>);

impl Peers {
    /// None where all numbers are given away.
    pub fn number(&mut self, address: SocketAddr) -> Option<u16> {
        let known = self.0.iter().position(|peer| *peer == address);
        if known.is_none() && self.0.len() < MOST {
            self.0.push(address);
            return u16::try_from(self.0.len() - 1).ok();
        }
        known.and_then(|number| u16::try_from(number).ok())
    }

    /// The addresses that were noted, in the order of their numbers.
    pub fn of(addresses: Vec<SocketAddr>) -> Result<Peers, String> {
        let most = addresses.len().min(MOST);
        let twice = (1..most).any(|number| addresses[..number].contains(&addresses[number]));
        if addresses.len() > MOST || twice {
            return Err(format!("its notes name {} peers, or one of them twice", addresses.len()));
        }
        Ok(Peers(addresses))
    }

    /// In the order of their numbers.
    pub fn addresses(&self) -> &[SocketAddr] {
        &self.0
    }

    pub fn address(&self, peer: u16) -> Option<SocketAddr> {
        self.0.get(usize::from(peer)).copied()
    }

    pub fn count(&self) -> usize {
        self.0.len()
    }
}

#[cfg(test)]
mod tests {
    use super::*;

    #[test]
    fn the_257th_peer_gets_no_number() {
        let mut peers = Peers::default();
        let address = |port: u16| SocketAddr::from(([127, 0, 0, 1], port));
        for port in 0..256 {
            assert_eq!(peers.number(address(port)), Some(port));
        }
        assert_eq!(peers.number(address(256)), None);
        assert_eq!(peers.number(address(255)), Some(255));
        assert_eq!((peers.address(255), peers.address(256)), (Some(address(255)), None));
        assert_eq!(peers.count(), 256);
    }

    #[test]
    fn peers_that_were_noted_keep_their_numbers() {
        let address = |port: u16| SocketAddr::from(([127, 0, 0, 1], port));
        let mut peers = Peers::of(vec![address(7), address(5)]).unwrap();
        assert_eq!((peers.number(address(5)), peers.number(address(9))), (Some(1), Some(2)));
        assert_eq!(peers.addresses(), [7, 5, 9].map(address));
        assert!(Peers::of(vec![address(7), address(7)]).is_err());
        assert!(Peers::of((0..257).map(address).collect()).is_err());
    }
}
