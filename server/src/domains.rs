//! Servers that fail together.

/// The domain of each server. The library decides how many servers of one domain may be away at once.
#[derive(Clone, Debug, Default, PartialEq, Eq)]
pub struct Domains {
    /// The domains, from server 1 on.
    of: Vec<u16>,
}

impl Domains {
    /// Makes the domains of the servers from server 1 on.
    pub fn new(of: Vec<u16>) -> Domains {
        Domains { of }
    }

    /// Makes so many domains, to which so many servers are assigned in turn.
    pub fn in_turn(domains: u16, servers: u16) -> Domains {
        Domains::new((0..servers).map(|it| it % domains).collect())
    }

    /// Returns the server's domain.
    pub fn domain_of(&self, server: u16) -> u16 {
        let index = usize::from(server).saturating_sub(1);
        self.of.get(index).copied().unwrap_or(0)
    }
}

#[cfg(test)]
mod tests {
    use super::*;

    #[test]
    fn servers_take_turns_in_domains() {
        let domains = Domains::in_turn(2, 4);
        assert_eq!([1, 2, 3, 4].map(|it| domains.domain_of(it)), [0, 1, 0, 1]);
        assert_eq!(Domains::default().domain_of(7), 0);
    }
}
