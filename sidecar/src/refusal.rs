use crate::error_name::ErrorName;
use hyper::header::{HeaderValue, CONTENT_TYPE, RETRY_AFTER};
use hyper::{Body, Response};
use serde::{Deserialize, Serialize};
use serde_json::json;

/// The header that names an error.
pub(crate) const ERROR: &str = "durkenzo-error";

/// Why a request has no answer of the application.
#[derive(Clone, Debug, PartialEq, Eq, Serialize, Deserialize)]
pub(crate) struct Refusal {
    pub(crate) name: ErrorName,
    pub(crate) why: String,
}

impl Refusal {
    pub(crate) fn new(name: ErrorName, why: impl Into<String>) -> Refusal {
        Refusal {
            name,
            why: why.into(),
        }
    }

    /// Returns the response: the status and the name of the error, and JSON with its reason.
    pub(crate) fn response(&self) -> Response<Body> {
        let name = self.name.text();
        let text = json!({"error": name, "why": self.why}).to_string();
        let mut response = Response::new(Body::from(text + "\n"));
        *response.status_mut() = self.name.status();
        let headers = response.headers_mut();
        headers.insert(CONTENT_TYPE, HeaderValue::from_static("application/json"));
        headers.insert(ERROR, HeaderValue::from_static(name));
        if self.name.is_transient() {
            headers.insert(RETRY_AFTER, HeaderValue::from_static("1"));
        }
        response
    }
}
