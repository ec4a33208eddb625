//! What the tests of nodes share: the sample's cluster and client, devices, and starts. What is expected is not here.
ghost use Rattle.std.specs.Prelude.{◌≡◌, ◌<◌, IfOk};

use dir_node::{Client, Cluster, Indexes, Name, Node, NodeConfig, NodeError, Op, Outputs, Refused};
pub use journal::MemoryDevice as Log;
use schema_reader::built_in_schema;
use std::alloc::Global;
use std::process::Abort;
use std::sync::Arc;
use std::test::*;
use view_store::{Fault, MemoryDevice};

/// For how many calls a device has room.
pub const ROOM: usize = 100;

/// The add of `dc=example,dc=com`, as an update by itself.
pub const ADD: &str =
    "683f041164633d6578616d706c652c64633d636f6d302a3017040b6f626a656374436c61737331080406646f6d61696e300f04026463310904076578616d706c65";

/// The removal of that entry.
pub const DELETE: &str = "4a1164633d6578616d706c652c64633d636f6d";

/// A no-op.
pub const NOOP: &str = "";

/// The 64 octets after a first start of cluster 9: the pair (0, 1).
pub const FIRST: &str =
    "a5020000000000000001000000000000000000000000000000010000000000090000000000000000000000000000000000000000000000000000000000000000";

/// A client that names itself.
pub const SEVEN: Client = Client {
    home: 0,
    life: 0,
    number: 7,
};

/// A node over a device in memory, and what it gave out first.
pub type Made = (Node<MemoryDevice, Log>, Outputs<Op>);

/// The cluster of the sample.
pub fn nine(rt: &impl Abort) -> Cluster {
    Cluster::new(9).expect(rt, "the number of a cluster")
}

/// The configuration of the replica with this index among three.
pub fn config(alloc: Global, cluster: Cluster, index: u64) -> Result<NodeConfig, Fail>
    ensures index { IfOk result (λ c. c.index ≡ index) }
    ensures count { IfOk result (λ c. c.count ≡ 3) }
{
    let schema = Arc::new(alloc, built_in_schema(alloc)?)?;
    let suffix = Name::read(alloc, &schema, "dc=example,dc=com")?;
    Ok(NodeConfig {
        schema,
        indexes: Indexes::none(alloc),
        suffix,
        cluster,
        index,
        count: 3,
    })
}

/// A device that holds these octets, given in hex, to which this is to happen.
pub fn device(alloc: Global, text: &str, fault: Fault) -> Result<MemoryDevice, Fail> {
    let bytes = hex::decode(alloc, text)?;
    Ok(MemoryDevice::new(alloc, bytes, ROOM, fault)?)
}

/// The octets that a device holds, in hex.
pub fn octets(alloc: Global, device: &MemoryDevice) -> Result<String, Fail> {
    Ok(hex::encode(alloc, device.bytes())?)
}

/// The first start of a replica of a cluster.
pub fn begin(
    alloc: Global,
    cluster: Cluster,
    index: u64,
    device: MemoryDevice,
) -> Result<Result<Made, Refused<MemoryDevice, Log>>, Fail>
    requires { index < 3 }
{
    let config = config(alloc, cluster, index)?;
    Ok(Node::fresh(alloc, device, None, config))
}

/// A later start of a replica of a cluster.
pub fn begin_again(
    alloc: Global,
    cluster: Cluster,
    index: u64,
    device: MemoryDevice,
) -> Result<Result<Made, Refused<MemoryDevice, Log>>, Fail>
    requires { index < 3 }
{
    let config = config(alloc, cluster, index)?;
    Ok(Node::reopen(alloc, device, None, config))
}

/// What a start made, which isn't refused.
fn made(made: Result<Made, Refused<MemoryDevice, Log>>) -> Result<Made, NodeError> {
    match made {
        Ok(made) => Ok(made),
        Err(refused) => Err(refused.error),
    }
}

/// The first start of a replica of cluster 9.
pub fn fresh(rt: &impl Abort, alloc: Global, index: u64, device: MemoryDevice) -> Result<Made, Fail>
    requires { index < 3 }
{
    Ok(made(begin(alloc, nine(rt), index, device)?)?)
}

/// A later start of a replica of cluster 9.
pub fn reopen(
    rt: &impl Abort,
    alloc: Global,
    index: u64,
    device: MemoryDevice,
) -> Result<Made, Fail>
    requires { index < 3 }
{
    Ok(made(begin_again(alloc, nine(rt), index, device)?)?)
}
