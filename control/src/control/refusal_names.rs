use durkenzo_driver::refusals;

/// Returns the names by which the control refuses and servers answer errors, except those that Redis has. A name may
/// come twice.
pub fn error_names() -> impl Iterator<Item = &'static str> {
    let of_scripts = refusals::NAMES.iter().chain(&OF_SCRIPTS).copied();
    let of_control = NAMES.iter().map(|it| it.0);
    let of_servers = ERRORS.iter().flat_map(|it| it.0.split(", "));
    of_scripts.chain(of_control).chain(of_servers)
}

/// The names of lines and admissions, which scripts have, too.
const OF_SCRIPTS: [&str; 8] = [
    "UnknownWord",
    "BadLine",
    "Vacant",
    "Paused",
    "NotExecutor",
    "NotYet",
    "Admitted",
    "Unreachable",
];

/// Each name with which the control refuses and scripts don't: when, and the advice. `./sm help` reads them here.
pub const NAMES: [(&str, &str, &str); 32] = [
    ("NotThere", "the word exists only if data lies elsewhere", "SM HELP tells where it is"),
    ("NotDurable", "the word exists only for data in memory", "SM HELP lists all words"),
    ("OneByOne", "processes of a cluster are ended and begun again by hand, one after another", "SM RESTART a"),
    ("Crowded", "too many commands wait for the control", "try again"),
    ("UnderWay", "a migration, a restart, a drain or a dump goes on", "wait for its end; SM SERVERS shows it"),
    ("NotLeader", "no process leads for now, or another one leads from now on, and goes on with the work under way",
      "look at SM SERVERS for its progress, and try again"),
    ("NotMoved", "the shard isn't at the server to which it should go: that server failed, or somebody made \
      the shard stay or go elsewhere", "SM LOOK k tells where it is"),
    ("NotNow", "a process hasn't read yet that the shard was taken, or a server hasn't acked the shard's record yet",
      "try again; if that server is gone, SM FAIL a"),
    ("StillThere", "the server has a process that keeps its lease, so it hasn't failed",
      "SM RESTART a, or end its process"),
    ("StillStopped", "the process of the server is the one that was stopped, or none was seen",
      "end the process, and start it again"),
    ("BadSettings", "the settings break a rule, which is named", "docs/SETTINGS.md tells the rule"),
    ("OtherSettings", "the settings have other shards or another ceiling, which can't change, or those in the store \
      can't be read", "change only servers, \
      capacities, groups, domains and caps in the line that SM CONFIGURE tells"),
    ("InUse", "the new settings leave out a server that has neither stopped nor failed",
      "SM DRAIN it, and end its process"),
    ("Unkept", "shards or servers are beyond what the settings allow, or a shard is at a server that they don't have",
      "move shards, or wait for the end of restarts, and try again"),
    ("ThreadBusy", "a thread hasn't noticed for 10 s that a server's state changed", "look at the log"),
    ("Stopping", "the process ends", "start it again"),
    ("StoreFull", "the disk, or etcd, is full, and nothing has changed",
      "make room by SM COMPACT, and in a folder by DEL before"),
    ("NoBase", "SM COMPACT: shards got no base, because there was no room for it, or it wasn't written in time",
      "make room if the disk is full, and try again"),
    ("StoreDown", "the store can't be reached, or didn't tell the outcome", "look at the log, and try again"),
    ("StoreDamaged", "no commands lead to what lies in the store", "restore the folder"),
    ("BadFile", "the system can't write or read the file", "--folder names the folder of such files"),
    ("BadName", "a file's name has letters, digits, -, _ and ., and doesn't begin with - or .", "take another name"),
    ("ForeignFile", "the file isn't a dump", "name a file that SM DUMP of this version wrote"),
    ("NameTaken", "something with that name exists that isn't a dump, so SM DUMP doesn't replace it",
      "take another name"),
    ("BadVersion", "the dump has another version", "name a file that SM DUMP of this version wrote"),
    ("TornFile", "the dump is cut, or was changed", "name an earlier file"),
    ("OtherShards", "the dump is of other servers or shards", "start a server with those, and load it there"),
    ("BadStand", "a shard can't have the stand that it has in the dump",
      "start a server as that one was, and load it there"),
    ("BadShard", "a shard can't be read for the dump", "look at the log"),
    ("NoMemory", "memory was refused", "try again"),
    ("Holding", "the thread still holds another shard", "try again"),
    ("BadServer", "a server has a number from 1 to 4095", "SM SERVERS lists them"),
];

/// Each error by which a server answers a command and that Redis hasn't: names, and when. docs/SERVER.md has the same
/// rows, and `./sm help` reads them here.
#[rustfmt::skip]
pub const ERRORS: [(&str, &str); 10] = [
    ("CROSSSHARD", "the keys of one transaction are of several shards"),
    ("SHARDPAUSED, SHARDVACANT, SERVERDOWN, SHARDBUSY", "the command waited in vain for `--wait`"),
    ("BADKEY, TOOLONG, TOOLARGE, QUEUEFULL", "a key, value, pattern, command, reply or transaction is too large"),
    ("NOEXPIRY", "`SET` with `EX` or the like: keys don't expire"),
    ("NOTDURABLE, STOREFULL, STOREDOWN, SHARDDAMAGED, TOOMANYCLIENTS, STOPPING",
      "with `--data` or `--etcd`: this shard has written nothing"),
    ("LOADING", "the server hasn't read the shard yet: nothing has changed"),
    ("OTHERVERSION", "another process doesn't know the command: nothing has changed"),
    ("UNKNOWN", "a write may have been made, perhaps for only some keys of `MSET`, `DEL` or `FLUSHDB`"),
    ("PEERDOWN", "with `--etcd`: a process couldn't be reached within `--wait`; nothing has changed"),
    ("NOTNUMBERED, BADNUMBER, PASSED", "`SM CALL` isn't made; with `PASSED` it may have been made before"),
];
