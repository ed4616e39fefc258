//! The contents of files in PEM.
use super::TlsFault;
use openssl::error::ErrorStack;
use openssl::pkey::{PKey, Private};
use openssl::ssl::SslContextBuilder;
use openssl::x509::{X509Ref, X509};
use std::fs;
use std::path::Path;

/// The first line of a key of any kind contains this.
const KEY: &str = "PRIVATE KEY-----";

/// A certificate, its chain and its key.
pub(super) struct TlsIdentity {
    leaf: X509,
    issuers: Vec<X509>,
    key: PKey<Private>,
}

impl TlsIdentity {
    /// Reads the identity from these files.
    ///
    /// # Errors
    ///
    /// If a file can't be read, or lacks what it should have.
    pub(super) fn read(chain: &Path, key: &Path) -> Result<TlsIdentity, TlsFault> {
        let mut found = certificates(chain)?.into_iter();
        let leaf = found.next();
        Ok(TlsIdentity {
            leaf: leaf.ok_or_else(|| TlsFault::NoCertificate(chain.to_owned()))?,
            issuers: found.collect(),
            key: private_key(key)?,
        })
    }

    pub(super) fn leaf(&self) -> &X509Ref {
        &self.leaf
    }

    /// Makes this side show the certificate, if the key belongs to it.
    pub(super) fn show(&self, builder: &mut SslContextBuilder) -> Result<(), ErrorStack> {
        builder.set_certificate(&self.leaf)?;
        for issuer in &self.issuers {
            builder.add_extra_chain_cert(issuer.clone())?;
        }
        builder.set_private_key(&self.key)?;
        builder.check_private_key()
    }
}

fn read(file: &Path) -> Result<Vec<u8>, TlsFault> {
    fs::read(file).map_err(|error| TlsFault::Unreadable(file.to_owned(), error))
}

/// Returns the certificates of the file. There must be at least one.
pub(super) fn certificates(file: &Path) -> Result<Vec<X509>, TlsFault> {
    let found = X509::stack_from_pem(&read(file)?).map_err(not_taken(file))?;
    match found.is_empty() {
        true => Err(TlsFault::NoCertificate(file.to_owned())),
        false => Ok(found),
    }
}

/// Returns the first key of the file. A key with a password is refused.
fn private_key(file: &Path) -> Result<PKey<Private>, TlsFault> {
    let bytes = read(file)?;
    if !String::from_utf8_lossy(&bytes).contains(KEY) {
        return Err(TlsFault::NoKey(file.to_owned()));
    }
    // Without the callback OpenSSL would ask for a password at the terminal.
    PKey::private_key_from_pem_callback(&bytes, |_| Ok(0)).map_err(not_taken(file))
}

/// Returns the fault of a file that OpenSSL refuses.
pub(super) fn not_taken(file: &Path) -> impl Fn(ErrorStack) -> TlsFault + '_ {
    |error| TlsFault::NotTaken(file.to_owned(), error.to_string())
}
