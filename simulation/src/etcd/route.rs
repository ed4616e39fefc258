/// The members that a client knows, and the member to which its next call goes.
#[derive(Clone, Debug)]
pub struct Route {
    members: Vec<usize>,
    at: usize,
}

impl Route {
    /// Returns a route to these members. There must be at least one, because a route always has a current member.
    pub fn to(members: Vec<usize>) -> Route {
        Route { members, at: 0 }
    }

    /// Returns the member to which the next call goes.
    pub fn current(&self) -> usize {
        self.members[self.at]
    }

    /// Passes over the current member. The next call goes to the member after it, in a ring.
    pub fn pass_over(&mut self) {
        self.at = (self.at + 1) % self.members.len();
    }

    /// Returns how many members the client knows.
    pub fn count(&self) -> usize {
        self.members.len()
    }
}
