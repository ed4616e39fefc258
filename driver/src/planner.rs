use crate::command::{ControlCommand, Next};
use crate::keys::VACANT;
use crate::proved::Director;
use crate::{CoreFault, Refused, ServerState};
use durkenzo::{word, Record, Stand};
use durkenzo_store::Revision;
use durkenzo_store_sys::Code;

/// The number of the planner's process for the proved control, which was elected once.
const PROCESS: u64 = 1;
const ELECTED: Revision = Revision(1);
/// Everyone has read everything that was written.
const ALL_READ: Revision = Revision(u64::MAX);

/// A proved control without a store. It judges commands and chooses the next ones, from the stands and states that its
/// owner gives it. The owner makes the commands, and tells which were made.
///
/// It assumes that each server sees each change at once, as servers of one process do, and waits for no ack: data in
/// memory is used by one thread at a time, so a server lets go of a shard before its record changes. It knows neither
/// admissions nor generations: whoever makes a change judges these.
///
/// ```
/// use durkenzo::Stand;
/// use durkenzo_driver::{ControlCommand, Next, Planner, ServerState};
///
/// let line = r#"{"version": 1, "bounds": [""], "servers": [{"id": 1, "domain": 0, "capacity": 1},
///     {"id": 2, "domain": 1, "capacity": 1}], "groups": [{"limit": 1, "down": 1}],
///     "shards": [{"group": 0, "load": 1, "cap": 1}], "ops": 1, "kept": 1, "ceiling": 1000, "workers": 1}"#;
/// let mut planner = Planner::new(line)?;
/// planner.read([Stand::Serving(1)], [ServerState::Up; 2])?;
/// planner.judge(ControlCommand::PrepareAddShard(0, 2))?;
/// planner.made()?;
/// assert_eq!(planner.next_of_shard(0)?, Next::Command(ControlCommand::PrepareDropShard(0)));
/// # Ok::<(), durkenzo_driver::Refused>(())
/// ```
#[derive(Debug)]
pub struct Planner {
    director: Director,
    /// How many commands were made since the last complete reading.
    made: u64,
}

impl Planner {
    /// Makes a planner with these settings, which has read nothing.
    ///
    /// # Errors
    ///
    /// `OtherSettings` if the line breaks a rule of settings.
    pub fn new(line: &str) -> Result<Planner, Refused> {
        let director = Director::alone(line, PROCESS, ELECTED).map_err(Refused::of)?;
        let mut planner = Planner { director, made: 0 };
        planner.have_all_follow().map_err(Refused::of)?;
        Ok(planner)
    }

    fn have_all_follow(&mut self) -> Result<(), CoreFault> {
        let servers = self.director.servers().to_vec();
        let all = servers.into_iter().map(|it| (it, ALL_READ));
        self.director.follow(all)
    }

    /// Reads everything again: the stand of each shard, and the state of each server, by number. A command that was
    /// judged and not made is forgotten.
    ///
    /// # Errors
    ///
    /// `Damaged` if there are more or fewer than the settings say, or if no commands lead to these.
    pub fn read(
        &mut self,
        stands: impl IntoIterator<Item = Stand>,
        states: impl IntoIterator<Item = ServerState>,
    ) -> Result<(), Refused> {
        self.made = 0;
        self.read_all(stands, states).map_err(Refused::of)
    }

    fn read_all(
        &mut self,
        stands: impl IntoIterator<Item = Stand>,
        states: impl IntoIterator<Item = ServerState>,
    ) -> Result<(), CoreFault> {
        self.director.lost()?;
        for stand in stands {
            let record = Record {
                stand,
                admitted: false,
                // A shard has had a change if and only if it isn't vacant.
                generation: u64::from(stand != Stand::Vacant),
            };
            let word = word::of(&record).ok_or(CoreFault(Code::BAD_BYTES))?;
            self.director.record(&written(word), Revision::NEVER)?;
        }
        for state in states {
            self.director.state(&written(state.number().into()))?;
        }
        self.director.read(Revision::NEVER)
    }

    /// Judges the command. If it is allowed, the caller must call [`Planner::made`] or [`Planner::read`] next: until
    /// then the planner answers nothing else.
    ///
    /// # Errors
    ///
    /// `Judged` with the first fault that applies. The planner is then as it was.
    pub fn judge(&mut self, command: ControlCommand) -> Result<(), Refused> {
        // A server begins again with each step, because no process of its own does.
        let runs = self.made + 1;
        self.director.command(command, runs).map_err(Refused::of)
    }

    /// Learns that the judged command was made.
    ///
    /// # Errors
    ///
    /// `Damaged` if no command was judged.
    pub fn made(&mut self) -> Result<(), Refused> {
        self.made += 1;
        self.director.made(Revision(self.made)).map_err(Refused::of)
    }

    /// Returns whether a command was made since the last complete reading.
    pub fn has_made(&self) -> bool {
        self.made > 0
    }

    /// Returns the next step of the shard's migration.
    ///
    /// # Errors
    ///
    /// `Judged` if there is no such shard.
    pub fn next_of_shard(&mut self, shard: u16) -> Result<Next, Refused> {
        self.director.next_of_shard(shard).map_err(Refused::of)
    }

    /// Returns the next step of the server's restart.
    ///
    /// # Errors
    ///
    /// `Judged` if there is no such server.
    pub fn next_of_server(&mut self, server: u16) -> Result<Next, Refused> {
        self.director.next_of_server(server).map_err(Refused::of)
    }

    /// Returns the next step of the drain of the server, or of the vacant shards if `server` is 0.
    ///
    /// # Errors
    ///
    /// `Judged` if there is no such server.
    pub fn next_of_drain(&mut self, server: u16) -> Result<Next, Refused> {
        self.director.next_of_drain(server).map_err(Refused::of)
    }

    /// Returns the state of the server after the commands that were made.
    ///
    /// # Errors
    ///
    /// `Judged` if there is no such server.
    pub fn state_of(&mut self, server: u16) -> Result<ServerState, Refused> {
        let run = self.director.run_of(server).map_err(Refused::of)?;
        Ok(run.state)
    }
}

/// Returns the bytes of a record's word, or of a state's number, written by no process.
fn written(number: u64) -> [u8; 17] {
    let mut bytes = VACANT;
    bytes[1..9].copy_from_slice(&number.to_be_bytes());
    bytes
}

#[cfg(test)]
mod tests {
    use super::*;
    use crate::CommandFault;

    const LINE: &str = r#"{"version": 2, "bounds": ["", "m"], "groups": [{"limit": 2, "down": 2}], "ops": 2,
        "kept": 9, "ceiling": 1000, "workers": 1, "domains": [{"domain": 0, "down": 1}],
        "servers": [{"id": 1, "domain": 0, "capacity": 2}, {"id": 2, "domain": 0, "capacity": 2}],
        "shards": [{"group": 0, "load": 1, "cap": 1}, {"group": 0, "load": 1, "cap": 1}]}"#;

    fn planner(stand: Stand, states: [ServerState; 2]) -> Planner {
        let mut planner = Planner::new(LINE).unwrap();
        planner.read([Stand::Vacant, stand], states).unwrap();
        planner
    }

    #[test]
    fn a_shard_on_its_way_goes_on_whatever_its_stand() {
        let (owner, next) = (1, 2);
        for (stand, wanted) in [
            (Stand::Serving(1), Next::Nothing),
            (
                Stand::Prepared { owner, next },
                Next::Command(ControlCommand::PrepareDropShard(1)),
            ),
            (
                Stand::Forwarding { owner, next },
                Next::Command(ControlCommand::AddShard(1)),
            ),
            (
                Stand::Taken { owner, previous: 2 },
                Next::Command(ControlCommand::DropShard(1)),
            ),
            (Stand::Paused(1), Next::Nothing),
        ] {
            let mut planner = planner(stand, [ServerState::Up; 2]);
            assert_eq!(planner.next_of_shard(1).unwrap(), wanted, "{stand:?}");
        }
    }

    #[test]
    fn caps_of_domains_bind() {
        let mut planner = planner(Stand::Vacant, [ServerState::Asked, ServerState::Approved]);
        let refused = planner.judge(ControlCommand::Approve(1));
        assert!(matches!(
            refused,
            Err(Refused::Judged(CommandFault::DomainCap))
        ));
        planner.judge(ControlCommand::Back(2)).unwrap();
        planner.made().unwrap();
        planner.judge(ControlCommand::Approve(1)).unwrap();
        planner.made().unwrap();
        assert_eq!(planner.state_of(1).unwrap(), ServerState::Approved);
    }

    #[test]
    fn a_command_that_was_judged_is_forgotten_where_all_is_read_again() {
        let mut planner = planner(Stand::Vacant, [ServerState::Up; 2]);
        planner.judge(ControlCommand::Assign(1, 2)).unwrap();
        assert!(planner.next_of_shard(1).is_err());
        planner
            .read([Stand::Vacant; 2], [ServerState::Up; 2])
            .unwrap();
        assert_eq!(
            planner.next_of_drain(0).unwrap(),
            Next::Command(ControlCommand::Assign(0, 1))
        );
    }
}
