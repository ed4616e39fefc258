use hyper::http::uri::Authority;
use hyper::Uri;
use std::fmt;
use std::str::FromStr;
use thiserror::Error;

/// The address of the application, such as `http://127.0.0.1:9000`.
#[derive(Clone, Debug, PartialEq, Eq)]
pub struct ApplicationUrl(Authority);

/// Why a text isn't the address of an application.
#[derive(Clone, Debug, PartialEq, Eq, Error)]
#[error("it is http://, an address, a colon and a port, such as http://127.0.0.1:9000")]
pub struct UrlFault;

impl ApplicationUrl {
    /// Returns the address and the port.
    pub fn authority(&self) -> &str {
        self.0.as_str()
    }

    /// Returns the URL of this path at the application. The path must begin with a slash.
    pub(crate) fn at(&self, path: &str) -> Uri {
        let uri = Uri::builder().scheme("http").authority(self.0.clone());
        uri.path_and_query(path)
            .build()
            .expect("the paths of handlers have digits and letters")
    }
}

impl FromStr for ApplicationUrl {
    type Err = UrlFault;

    fn from_str(text: &str) -> Result<ApplicationUrl, UrlFault> {
        let uri: Uri = text.parse().map_err(|_| UrlFault)?;
        let has_path = !matches!(uri.path(), "" | "/") || uri.query().is_some();
        let authority = uri.authority().filter(|it| it.port().is_some());
        match (uri.scheme_str(), authority) {
            (Some("http"), Some(authority)) if !has_path => Ok(ApplicationUrl(authority.clone())),
            _ => Err(UrlFault),
        }
    }
}

impl fmt::Display for ApplicationUrl {
    fn fmt(&self, f: &mut fmt::Formatter<'_>) -> fmt::Result {
        write!(f, "http://{}", self.0)
    }
}

#[cfg(test)]
mod tests {
    use super::*;

    #[test]
    fn only_an_address_with_a_port_is_read() {
        let read = |text: &str| text.parse::<ApplicationUrl>();
        for text in [
            "http://127.0.0.1:9000",
            "http://app:9000/",
            "http://[::1]:9000",
        ] {
            let url = read(text).unwrap();
            let path = url.at("/shard/3/add").to_string();
            assert!(path.ends_with(":9000/shard/3/add"), "{path}");
        }
        for text in [
            "",
            "127.0.0.1:9000",
            "http://127.0.0.1",
            "https://a:1",
            "http://a:1/b",
            "http://a:1?b",
        ] {
            assert_eq!(read(text), Err(UrlFault), "{text}");
        }
    }
}
