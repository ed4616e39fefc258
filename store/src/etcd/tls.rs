use super::{EtcdProtocol, StartError};
use openssl::error::ErrorStack;
use openssl::pkey::{PKey, Private};
use openssl::ssl::{
    Ssl, SslConnector, SslConnectorBuilder, SslMethod, SslOptions, SslRef, SslSessionCacheMode,
    SslVersion,
};
use openssl::x509::store::{X509Store, X509StoreBuilder};
use openssl::x509::verify::{X509CheckFlags, X509VerifyFlags};
use openssl::x509::X509;
use std::fs;
use std::net::IpAddr;
use std::path::{Path, PathBuf};

/// The path of the certificates in Debian's package.
const OF_SYSTEM: &str = "/etc/ssl/certs/ca-certificates.crt";
/// How many authorities may stand between a member's certificate and a trusted one.
const MOST_BETWEEN: u32 = 3;
/// The cipher suites of TLS 1.2. All have forward secrecy, and none has a group that the other side makes up.
const SUITES: &str = "ECDHE+AESGCM:ECDHE+CHACHA20:@SECLEVEL=2";
/// The name of HTTP/2 in the handshake, and the same with its length, as the client offers it.
const HTTP2: &[u8] = b"h2";
const OFFERED: &[u8] = b"\x02h2";
/// The first line of a key of any kind contains this.
const KEY: &str = "PRIVATE KEY-----";

/// The trusted authorities, this client's identity, and the protocol that it speaks.
#[derive(Clone)]
pub(super) struct Tls {
    connector: SslConnector,
    protocol: EtcdProtocol,
}

impl Tls {
    /// Makes the configuration that trusts the authorities in this file, or the system's if no file is named.
    pub(super) fn new(
        roots: Option<&Path>,
        identity: Option<&(PathBuf, PathBuf)>,
        protocol: EtcdProtocol,
    ) -> Result<Tls, StartError> {
        let mut builder = builder()?;
        match protocol {
            EtcdProtocol::Json => {}
            EtcdProtocol::Grpc => builder.set_alpn_protos(OFFERED)?,
        }
        let roots = roots.unwrap_or(Path::new(OF_SYSTEM));
        let trusted = store(&certificates(roots)?).map_err(|error| bad(roots, error))?;
        builder.set_verify_cert_store(trusted)?;
        if let Some((chain, key)) = identity {
            show(&mut builder, &certificates(chain)?, &private_key(key)?)
                .map_err(|error| bad(key, error))?;
        }
        let connector = builder.build();
        Ok(Tls {
            connector,
            protocol,
        })
    }

    /// Returns whether the member speaks the protocol, as it said in the handshake.
    pub(super) fn is_spoken(&self, session: &SslRef) -> bool {
        match self.protocol {
            EtcdProtocol::Json => true,
            EtcdProtocol::Grpc => session.selected_alpn_protocol() == Some(HTTP2),
        }
    }

    /// Begins a connection to the member with this name or address, for which it must show a certificate.
    pub(super) fn session(&self, host: &str) -> Result<Ssl, ErrorStack> {
        // In a URL an address may be in brackets.
        let host = host.trim_matches(['[', ']']);
        let is_name = host.parse::<IpAddr>().is_err();
        let asked = self
            .connector
            .configure()?
            .use_server_name_indication(is_name);
        let mut session = asked.into_ssl(host)?;
        session.param_mut().set_hostflags(
            X509CheckFlags::NO_PARTIAL_WILDCARDS | X509CheckFlags::NEVER_CHECK_SUBJECT,
        );
        Ok(session)
    }
}

/// Returns a builder for TLS 1.2 and 1.3 without resumption and renegotiation. It trusts nobody yet.
fn builder() -> Result<SslConnectorBuilder, ErrorStack> {
    let mut builder = SslConnector::builder(SslMethod::tls_client())?;
    builder.set_min_proto_version(Some(SslVersion::TLS1_2))?;
    builder.set_cipher_list(SUITES)?;
    builder.set_options(SslOptions::NO_RENEGOTIATION | SslOptions::NO_TICKET);
    builder.set_session_cache_mode(SslSessionCacheMode::OFF);
    builder.set_cert_store(store(&[])?);
    builder
        .verify_param_mut()
        .set_flags(X509VerifyFlags::PARTIAL_CHAIN)?;
    builder.set_verify_depth(MOST_BETWEEN);
    Ok(builder)
}

fn store(certificates: &[X509]) -> Result<X509Store, ErrorStack> {
    let mut store = X509StoreBuilder::new()?;
    for certificate in certificates {
        store.add_cert(certificate.clone())?;
    }
    Ok(store.build())
}

/// Makes this client show its certificate, if the key belongs to it.
fn show(
    builder: &mut SslConnectorBuilder,
    chain: &[X509],
    key: &PKey<Private>,
) -> Result<(), ErrorStack> {
    for (place, certificate) in chain.iter().enumerate() {
        match place {
            0 => builder.set_certificate(certificate)?,
            _ => builder.add_extra_chain_cert(certificate.clone())?,
        }
    }
    builder.set_private_key(key)?;
    builder.check_private_key()
}

fn bad(file: &Path, error: impl ToString) -> StartError {
    StartError::BadFile(file.to_owned(), error.to_string())
}

fn read(file: &Path) -> Result<Vec<u8>, StartError> {
    fs::read(file).map_err(|error| bad(file, error))
}

fn certificates(file: &Path) -> Result<Vec<X509>, StartError> {
    let found = X509::stack_from_pem(&read(file)?).map_err(|error| bad(file, error))?;
    match found.is_empty() {
        true => Err(bad(file, "it has no certificate in PEM")),
        false => Ok(found),
    }
}

/// Returns the first key of the file. A key with a password is refused.
fn private_key(file: &Path) -> Result<PKey<Private>, StartError> {
    let bytes = read(file)?;
    if !String::from_utf8_lossy(&bytes).contains(KEY) {
        return Err(bad(file, "it has no key in PEM"));
    }
    // Without the callback OpenSSL would ask for a password at the terminal.
    PKey::private_key_from_pem_callback(&bytes, |_| Ok(0)).map_err(|error| bad(file, error))
}
