//! Sessions over the sample's six entries, octets to octets: requests and responses flow in, and what is written is compared. No expectation
//! is here but that of the manager's bind.

use ldap_session::{Config, SessionEnd, serve};
use local_directory::{Indexes, LocalDirectory, Name, Schema, Store};
use schema_reader::built_in_schema;
use std::alloc::Global;
use std::process::Abort;
use std::sync::Arc;
use std::test::*;

/// The manager's bind, and its response.
pub const BIND: &str =
    "302c0201016027020103041a636e3d61646d696e2c64633d6578616d706c652c64633d636f6d8006736563726574";

pub const BOUND: &str = "300c02010161070a010004000400";

/// The manager's bind, and the adds of the sample's six entries, operations 1 to 6.
const BEGINNING: &[&str] = &[
    "302c0201016027020103041a636e3d61646d696e2c64633d6578616d706c652c64633d636f6d8006736563726574",
    "3044020102683f041164633d6578616d706c652c64633d636f6d302a3017040b6f626a656374436c61737331080406646f6d61696e300f04026463310904076578616d706c65",
    "30570201036852041a6f753d4974656d732c64633d6578616d706c652c64633d636f6d30343023040b6f626a656374436c617373311404126f7267616e697a6174696f6e616c556e6974300d04026f75310704054974656d73",
    "308183020104687e0421636e3d416e612c6f753d4974656d732c64633d6578616d706c652c64633d636f6d30593015040b6f626a656374436c617373310604046974656d300b0402636e31050403416e613016040b6465736372697074696f6e310704056669727374300e04056c6162656c31050403616263300b040472616e6b3103040139",
    "306e02010568690422636e3d416e6e612c6f753d4974656d732c64633d6578616d706c652c64633d636f6d30433015040b6f626a656374436c617373310604046974656d300c0402636e31060404416e6e61300e04056c6162656c3105040378797a300c040472616e6b310404023130",
    "306f020106686a0423636e3d416e616e612c6f753d4974656d732c64633d6578616d706c652c64633d636f6d30433015040b6f626a656374436c617373310604046974656d300d0402636e31070405416e616e61300d04067469636b65743103040137300c040472616e6b310404022d33",
    "3081870201076881810423636e3d416e204e612c6f753d4974656d732c64633d6578616d706c652c64633d636f6d305a3015040b6f626a656374436c617373310604046974656d300d0402636e31070405416e204e613032040472616e6b312a042831323334353637383930313233343536373839303132333435363738393031323334353637383930",
];

/// A directory, and what its sessions share.
#[derive(Drop)]
pub struct Site {
    pub schema: Arc<Schema>,
    pub manager: Name,
    pub directory: LocalDirectory,
}

/// What sessions of the manager's are configured by.
pub fn config<'a>(schema: &'a Schema, manager: &'a Name, session: u64) -> Config<'a> {
    Config {
        schema,
        manager,
        password: b"secret",
        replica: 0,
        restarts: 0,
        session,
    }
}

/// A directory without entries.
fn empty_site(alloc: Global) -> Result<Site, Fail> {
    let schema = Arc::new(alloc, built_in_schema(alloc)?)?;
    let suffix = Name::read(alloc, &schema, "dc=example,dc=com")?;
    let manager = Name::read(alloc, &schema, "cn=admin,dc=example,dc=com")?;
    let shared = Arc::try_clone(&schema)?;
    let store = Store::new(alloc, shared, Indexes::none(alloc), suffix);
    let directory = LocalDirectory::new(alloc, store, 0);
    Ok(Site {
        schema,
        manager,
        directory,
    })
}

/// The octets of lines of hexadecimal.
pub fn octets(alloc: Global, lines: &[&str]) -> Result<Vec<u8>, Fail> {
    let mut all = Vec::new(alloc);
    for line in lines {
        all.extend_from_slice(&hex::decode(alloc, line)?)?;
    }
    Ok(all)
}

/// A session over a directory: what is written in hexadecimal, and how it ends.
pub fn talk(
    alloc: Global,
    site: &mut Site,
    session: u64,
    input: &[u8],
) -> Result<(String, SessionEnd), Fail> {
    let Site {
        schema,
        manager,
        directory,
    } = site;
    let config = config(schema, manager, session);
    let mut reader = input;
    let mut written = Vec::new(alloc);
    let end = serve(alloc, &mut reader, &mut written, directory, &config);
    Ok((hex::encode(alloc, &written)?, end))
}

/// The directory with the sample's six entries.
pub fn sample(alloc: Global) -> Result<Site, Fail> {
    let mut site = empty_site(alloc)?;
    talk(alloc, &mut site, 1, &octets(alloc, BEGINNING)?)?;
    Ok(site)
}

/// Texts behind a text.
pub fn joined(alloc: Global, first: &str, texts: &[&str]) -> Result<String, Fail> {
    let mut all = String::from_str(alloc, first)?;
    for text in texts {
        all.push_str(text)?;
    }
    Ok(all)
}

/// Compares what is written, behind the name of its row.
pub fn is_written(
    rt: &impl Abort,
    alloc: Global,
    name: &str,
    written: &str,
    wanted: &str,
) -> Result<(), Fail> {
    let written = joined(alloc, name, &[written])?;
    let wanted = joined(alloc, name, &[wanted])?;
    assert_eq!(rt; written.as_str(), wanted.as_str());
    Ok(())
}
