use crate::safety::Safety;
use durkenzo_control::links::Secret;

/// A client's role, which depends on the password that it gave.
#[derive(Clone, Copy, Debug, Default, PartialEq, Eq)]
pub enum Role {
    /// May do everything, except change shards if that has a password of its own.
    #[default]
    Default,
    /// May do everything.
    Control,
}

impl Role {
    /// Returns the role with this name, if there is one.
    pub fn named(name: &[u8]) -> Option<Role> {
        [Role::Default, Role::Control]
            .into_iter()
            .find(|it| it.name().as_bytes() == name)
    }

    /// Returns its name, as AUTH takes it.
    pub fn name(self) -> &'static str {
        match self {
            Role::Default => "default",
            Role::Control => "control",
        }
    }

    /// Returns whether this is the role's password. If the role needs none, any password is; but nobody gets the
    /// control's role that way.
    pub fn is_opened_by(self, password: &[u8], safety: &Safety) -> bool {
        let is_right = |it: &Secret| it.is(password);
        match self {
            Role::Default => safety.password.as_ref().is_none_or(is_right),
            Role::Control => safety.control_password.as_ref().is_some_and(is_right),
        }
    }

    /// Returns whether the role may change shards. All roles may if there is no password for that.
    pub fn may_control(self, safety: &Safety) -> bool {
        self == Role::Control || safety.control_password.is_none()
    }
}

#[cfg(test)]
mod tests {
    use super::*;

    #[test]
    fn each_role_has_its_password() {
        let mut safety = Safety::default();
        assert!(Role::Default.is_opened_by(b"any", &safety) && Role::Default.may_control(&safety));
        assert!(!Role::Control.is_opened_by(b"", &safety));
        safety.password = Secret::of(b"one");
        safety.control_password = Secret::of(b"two");
        for (role, right, wrong) in [(Role::Default, "one", "two"), (Role::Control, "two", "one")] {
            assert!(role.is_opened_by(right.as_bytes(), &safety));
            assert!(!role.is_opened_by(wrong.as_bytes(), &safety));
            assert_eq!(role.may_control(&safety), role == Role::Control);
            assert_eq!(Role::named(role.name().as_bytes()), Some(role));
        }
        assert_eq!(Role::named(b"admin"), None);
    }
}
