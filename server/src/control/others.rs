//! The controls in the other processes of the cluster.
use super::{Again, Asked, Words};
use crate::io::ReplyAddress;
use crate::works::Peers;
use durkenzo_control::control::{is_decided, OtherControls};
use durkenzo_driver::Member;

impl OtherControls for Peers {
    fn member(&self) -> &Member {
        Peers::member(self)
    }

    fn leader(&self) -> Option<u16> {
        Peers::leader(self)
    }

    fn ask(&self, server: u16, asked: Asked, again: Option<Again>) {
        self.ask_control(server, asked, again);
    }

    fn ask_to_be_back(&self, leader: u16, tell: Box<dyn FnOnce(bool) + Send>) {
        let reply_to = ReplyAddress::process(move |told| {
            tell(is_decided(&told));
            // The leader may have brought it up before it asks.
            if told.starts_with(b"-REFUSED AlreadyUp") {
                return tracing::info!("this server is up");
            }
            let told = String::from_utf8_lossy(&told);
            tracing::info!(told = told.trim_end(), "asked for this server to be up");
        });
        let server = Peers::member(self).server().to_string();
        let asked = Asked {
            words: Words::of(["SM", "BACK", &server]),
            reply_to: Box::new(reply_to),
        };
        self.ask_control(leader, asked, None);
    }
}
