//! The settings that all TLS connections of this server share: only versions 1.2 and 1.3, no session resumption, no
//! renegotiation, and a bound on each chain of certificates.
use super::pem::TlsIdentity;
use openssl::error::ErrorStack;
use openssl::ssl::{
    SslContextBuilder, SslMethod, SslMode, SslOptions, SslSessionCacheMode, SslVerifyMode,
    SslVersion,
};
use openssl::x509::store::X509StoreBuilder;
use openssl::x509::verify::X509VerifyFlags;
use openssl::x509::X509;

/// How many authorities may stand between a certificate and a trusted one.
const MOST_BETWEEN: u32 = 3;
/// All have forward secrecy, and the quickest comes first. OpenSSL's level 2 means keys of 112 bits and more.
const SUITES: &str = "ECDHE-ECDSA-AES128-GCM-SHA256:ECDHE-RSA-AES128-GCM-SHA256:\
    ECDHE-ECDSA-AES256-GCM-SHA384:ECDHE-RSA-AES256-GCM-SHA384:\
    ECDHE-ECDSA-CHACHA20-POLY1305:ECDHE-RSA-CHACHA20-POLY1305:@SECLEVEL=2";
const SUITES_1_3: &str =
    "TLS_AES_128_GCM_SHA256:TLS_AES_256_GCM_SHA384:TLS_CHACHA20_POLY1305_SHA256";
const GROUPS: &str = "X25519:P-256:P-384";

/// Returns a side that shows this identity. It doesn't ask the other side for a certificate yet.
pub(super) fn builder(
    method: SslMethod,
    identity: &TlsIdentity,
) -> Result<SslContextBuilder, ErrorStack> {
    let mut builder = SslContextBuilder::new(method)?;
    builder.set_min_proto_version(Some(SslVersion::TLS1_2))?;
    builder.set_max_proto_version(Some(SslVersion::TLS1_3))?;
    builder.set_cipher_list(SUITES)?;
    builder.set_ciphersuites(SUITES_1_3)?;
    builder.set_groups_list(GROUPS)?;
    builder.set_options(
        SslOptions::NO_COMPRESSION
            | SslOptions::NO_RENEGOTIATION
            | SslOptions::NO_TICKET
            | SslOptions::CIPHER_SERVER_PREFERENCE,
    );
    builder.set_session_cache_mode(SslSessionCacheMode::OFF);
    builder.set_mode(
        SslMode::ACCEPT_MOVING_WRITE_BUFFER
            | SslMode::ENABLE_PARTIAL_WRITE
            | SslMode::RELEASE_BUFFERS,
    );
    identity.show(&mut builder)?;
    Ok(builder)
}

/// Asks the other side for a certificate that one of these has issued. A trusted certificate may itself be issued by
/// another authority.
pub(super) fn ask(builder: &mut SslContextBuilder, trusted: &[X509]) -> Result<(), ErrorStack> {
    let mut store = X509StoreBuilder::new()?;
    for certificate in trusted {
        store.add_cert(certificate.clone())?;
        builder.add_client_ca(certificate)?;
    }
    builder.set_verify_cert_store(store.build())?;
    builder
        .verify_param_mut()
        .set_flags(X509VerifyFlags::PARTIAL_CHAIN)?;
    builder.set_verify_depth(MOST_BETWEEN);
    builder.set_verify(SslVerifyMode::PEER | SslVerifyMode::FAIL_IF_NO_PEER_CERT);
    Ok(())
}
