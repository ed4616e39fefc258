use super::Identity;

/// The answer to a process with another secret, or with none.
pub const OTHER_SECRET: &str = "its secret is another one";
/// The answer to a process of another cluster.
pub const OTHER_SETTINGS: &str = "its settings are other ones";
/// A client sends this number for the server that it runs or wants, because it runs none.
pub const NO_SERVER: u16 = 0;
/// The checksum of settings that a client doesn't know yet.
pub const UNKNOWN_SETTINGS: u64 = 0;

/// Which of the processes that know the secret may connect.
#[derive(Clone, Copy, Debug, PartialEq, Eq)]
pub enum Admission {
    /// Only other processes of the cluster. Each says which server it wants.
    Processes,
    /// Clients too, which run no server. They may want any server, and may not know the settings yet.
    Clients,
}

impl Admission {
    /// Returns why these two aren't of one cluster, if they aren't.
    pub(super) fn told_apart(self, own: Identity, other: Identity) -> Option<String> {
        let is_unknown = [own, other]
            .iter()
            .any(|it| it.settings == UNKNOWN_SETTINGS);
        let may_differ = self == Admission::Clients && is_unknown;
        (own.settings != other.settings && !may_differ).then(|| OTHER_SETTINGS.to_owned())
    }

    /// Returns why a process isn't the wanted one, if it isn't.
    pub(super) fn not_wanted(self, found: Identity, wanted: u16) -> Option<String> {
        let (server, is_any) = (found.server, wanted == NO_SERVER);
        let may_differ = self == Admission::Clients && is_any;
        (server != wanted && !may_differ).then(|| format!("it is server {server}, not {wanted}"))
    }
}

#[cfg(test)]
mod tests {
    use super::super::FIRST_TABLE;
    use super::*;

    #[test]
    fn only_where_clients_may_come_nothing_has_to_be_known() {
        let identity = |settings| Identity {
            server: 2,
            settings,
            process: 1,
            table: FIRST_TABLE,
        };
        let (own, unknown) = (identity(7), identity(UNKNOWN_SETTINGS));
        for (admission, is_taken) in [(Admission::Clients, true), (Admission::Processes, false)] {
            assert_eq!(admission.told_apart(own, unknown).is_none(), is_taken);
            assert_eq!(admission.not_wanted(own, NO_SERVER).is_none(), is_taken);
            assert!(admission.told_apart(own, identity(8)).is_some());
            assert!(admission.not_wanted(own, 3).is_some());
            assert!(admission
                .told_apart(own, own)
                .or(admission.not_wanted(own, 2))
                .is_none());
        }
    }
}
