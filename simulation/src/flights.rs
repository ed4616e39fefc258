//! The transactions on their way to the store, and their outcomes on the way back.
use crate::etcd::Reached;
use crate::fault::Fault;
use crate::flight::{Became, Flight};
use crate::simulated_store::SimulatedStore;
use crate::timeline::Column;
use crate::told;
use durkenzo_store::{Done, Outcome, Room, Transaction, WriteError};

/// Returns the outcome that says that the outcome isn't known.
fn unknown() -> Became {
    Err(WriteError::Unknown("by chance".to_owned()))
}

impl SimulatedStore {
    /// Sends a transaction. Nobody waits for its outcome.
    pub fn send_for_nobody(&mut self, transaction: Transaction, route: usize) {
        self.send(transaction, route, None);
    }

    /// Sends a transaction. If `done` is given, it will be told the outcome.
    pub fn send(&mut self, transaction: Transaction, route: usize, done: Option<Done>) {
        self.sent += 1;
        self.flights.push(Flight {
            number: self.sent,
            transaction,
            route,
            done,
            became: None,
        });
    }

    /// Notes that the control of this column goes on. From now on the store must not make any command that this control
    /// has sent so far.
    pub fn give_up_commands(&mut self, column: Column) {
        self.given_up.insert(column.number(), self.sent);
    }

    /// Makes the sent transaction. If it is a command that its control has given up, notes that.
    fn make_sent(&mut self, at: usize) -> Became {
        let (number, route) = (self.flights[at].number, self.flights[at].route);
        let transaction = self.flights[at].transaction.clone();
        let became = self.make(&transaction);
        let column = self.column_of(route).number();
        let is_given_up = self.given_up.get(&column).is_some_and(|it| number <= *it);
        let is_command = transaction.puts.iter().any(|it| it.key == b"commands");
        if is_given_up && is_command && matches!(became, Ok(Outcome::Made(_))) {
            self.made_late
                .get_or_insert_with(|| told::summary(&transaction));
        }
        became
    }

    /// Makes a transaction while its sender waits, or loses it.
    pub fn called(&mut self, transaction: Transaction, route: usize) -> Became {
        let column = self.column_of(route);
        self.let_others_write();
        match self.reached(route) {
            Reached::IsGone => return Err(WriteError::Unavailable("no member".to_owned())),
            Reached::Hangs => {
                self.routes[route].pass_over();
                self.send_for_nobody(transaction, route);
                return unknown();
            }
            Reached::Answers => {}
        }
        if !self.fails(Fault::CallLost, 10, column) {
            return self.make(&transaction);
        }
        match self.chance.below(4) {
            0 => Err(WriteError::Unavailable("by chance".to_owned())),
            1 => unknown(),
            2 => self.make(&transaction).and(unknown()),
            _ => {
                self.send_for_nobody(transaction, route);
                unknown()
            }
        }
    }

    /// Makes one of the transactions on their way, by chance, because somebody waits for the store.
    pub fn let_others_write(&mut self) {
        if self.is_calm || self.flights.is_empty() || !self.chance.is_true(1, 4) {
            return;
        }
        let at = self.chance.below(self.flights.len() as u64) as usize;
        let route = self.flights[at].route;
        if self.flights[at].became.is_none() && self.reached(route) == Reached::Answers {
            self.flights[at].became = Some(self.make_sent(at));
        }
    }

    /// Moves one random transaction or outcome a step further. If its sender learns an outcome by that, returns the
    /// sender's callback and the outcome.
    pub fn fly(&mut self) -> Option<(Done, Became)> {
        let count = self.flights.len() as u64;
        let at = self.chance.below(count.max(1)) as usize;
        let flight = self.flights.get_mut(at)?;
        if let Some(became) = flight.became.take() {
            return self.come_back(at, became);
        }
        let (transaction, route) = (flight.transaction.clone(), flight.route);
        if let Some(became) = self.untrue(&transaction) {
            if let Some(done) = self.flights[at].done.take() {
                return self.tell(Some(done), route, became);
            }
        }
        match self.reached(route) {
            Reached::IsGone => self.refuse(at, WriteError::Unavailable("no member".to_owned())),
            Reached::Hangs if self.chance.is_true(1, 4) => {
                self.routes[route].pass_over();
                self.give_up_on(at)
            }
            Reached::Hangs => None,
            Reached::Answers => self.arrive(at, &transaction),
        }
    }

    /// Brings the outcome of a transaction back to its sender, or loses it.
    fn come_back(&mut self, at: usize, became: Became) -> Option<(Done, Became)> {
        let column = self.column_of(self.flights[at].route);
        let became = match self.fails(Fault::AnswerLost, 12, column) {
            true => unknown(),
            false => became,
        };
        let flight = self.flights.swap_remove(at);
        let became = self.told(&flight.transaction, became);
        self.tell(flight.done, flight.route, became)
    }

    /// Delivers a transaction to a member that answers, unless a fault strikes.
    fn arrive(&mut self, at: usize, transaction: &Transaction) -> Option<(Done, Became)> {
        let (why, column) = (
            || "by chance".to_owned(),
            self.column_of(self.flights[at].route),
        );
        let is_free = transaction.writes() && transaction.room() == Room::Free;
        if self.fails(Fault::SentInVain, 20, column) {
            return self.give_up_on(at);
        }
        if self.fails(Fault::WriteRefused, 80, column) {
            return self.refuse(at, WriteError::Unavailable(why()));
        }
        if is_free && self.fails(Fault::WriteFull, 80, column) {
            return self.refuse(at, WriteError::Full(why()));
        }
        if !transaction.puts.is_empty() && self.fails(Fault::WriteTooLarge, 80, column) {
            return self.refuse(at, WriteError::TooLarge(why()));
        }
        self.land(at, transaction)
    }

    /// Stops waiting for a transaction on its way. The transaction arrives later or never.
    fn give_up_on(&mut self, at: usize) -> Option<(Done, Became)> {
        let became = self.told(&self.flights[at].transaction, unknown());
        let (done, route) = (self.flights[at].done.take(), self.flights[at].route);
        if self.chance.is_true(1, 2) {
            self.flights.swap_remove(at);
        }
        self.tell(done, route, became)
    }

    /// Refuses the transaction on its way. The store doesn't make it, and never will.
    fn refuse(&mut self, at: usize, error: WriteError) -> Option<(Done, Became)> {
        let flight = self.flights.swap_remove(at);
        self.tell(flight.done, flight.route, Err(error))
    }

    /// Lets the store make the transaction. A copy of it may arrive later.
    fn land(&mut self, at: usize, transaction: &Transaction) -> Option<(Done, Became)> {
        let became = self.make_sent(at);
        let flight = &mut self.flights[at];
        let (done, route) = (flight.done.take(), flight.route);
        let column = self.column_of(route);
        let is_late = self.fails(Fault::AnswerLate, 6, column);
        // If the store refused the transaction for now, it doesn't make a copy of it either.
        let is_copied = became.is_ok() && self.fails(Fault::SentTwice, 12, column);
        if done.is_none() || !is_copied {
            self.flights.swap_remove(at);
        }
        let done = done?;
        if is_late {
            self.flights.push(Flight {
                number: self.sent,
                transaction: transaction.clone(),
                route,
                done: Some(done),
                became: Some(became),
            });
            return None;
        }
        let became = self.told(transaction, became);
        self.tell(Some(done), route, became)
    }

    /// Returns the sender's callback and the outcome, if a sender waits for it.
    fn tell(&mut self, done: Option<Done>, route: usize, became: Became) -> Option<(Done, Became)> {
        let (done, told) = (done?, || format!("is told {}", told::became(&became)));
        self.timeline.note(self.column_of(route), told);
        Some((done, became))
    }
}
