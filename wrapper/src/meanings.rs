//! Readers and writers: a text's meaning by columns, and the text of a meaning.

use crate::{raw, Refusal, CHAIN_TEXT, EDGES, LIST_TEXT, NETWORK_TEXT, STEPS};

/// The meaning of a network text; row k of the columns is edge k.
#[derive(Clone, Debug, PartialEq, Eq)]
pub struct Network {
    /// The number of vertices.
    pub vertices: usize,
    /// The reserved edge.
    pub reserved: usize,
    /// The lower ends.
    pub low: Vec<u16>,
    /// The higher ends.
    pub high: Vec<u16>,
    /// The costs.
    pub cost: Vec<i64>,
}

/// The meaning of a chain text; row k of the columns is step k.
#[derive(Clone, Debug, PartialEq, Eq)]
pub struct Chain {
    /// The vertices that leave.
    pub v: Vec<u16>,
    /// The partners to split with.
    pub x: Vec<u16>,
    /// The other partners.
    pub y: Vec<u16>,
    /// The third partners.
    pub z: Vec<u16>,
    /// The costs of the third partners after the steps.
    pub cost: Vec<i64>,
    /// The edge that the ending drops.
    pub dropped: u16,
}

/// Reads a network text: refusals 1 to 5. Degrees and cuts are not looked at.
pub fn read_network(text: &[u8]) -> Result<Network, Refusal> {
    let (mut low, mut high, mut cost) = (vec![0; EDGES], vec![0; EDGES], vec![0; EDGES]);
    let (mut vertices, mut reserved) = (0, 0);
    Refusal::judge(raw::read_network(
        text,
        &mut low,
        &mut high,
        &mut cost,
        &mut vertices,
        &mut reserved,
    ))?;
    let edges = 2 * vertices;
    low.truncate(edges);
    high.truncate(edges);
    cost.truncate(edges);
    Ok(Network {
        vertices,
        reserved,
        low,
        high,
        cost,
    })
}

/// Writes the text of a network: refusals 1 to 5. Degrees and cuts are not looked at.
pub fn write_network(network: &Network) -> Result<Vec<u8>, Refusal> {
    written(NETWORK_TEXT, |text, length| {
        raw::write_network(
            network.vertices,
            network.reserved,
            &network.low,
            &network.high,
            &network.cost,
            text,
            length,
        )
    })
}

/// Reads a chain text for so many vertices: refusals 2 and 1. The steps are not judged.
pub fn read_chain(vertices: usize, text: &[u8]) -> Result<Chain, Refusal> {
    let [mut v, mut x, mut y, mut z] = [(); 4].map(|()| vec![0; STEPS]);
    let mut cost = vec![0; STEPS];
    let mut dropped = 0;
    let columns = raw::StepsMut {
        v: &mut v,
        x: &mut x,
        y: &mut y,
        z: &mut z,
        cost: &mut cost,
    };
    Refusal::judge(raw::read_chain(vertices, text, columns, &mut dropped))?;
    let steps = vertices - 2;
    for column in [&mut v, &mut x, &mut y, &mut z] {
        column.truncate(steps);
    }
    cost.truncate(steps);
    Ok(Chain {
        v,
        x,
        y,
        z,
        cost,
        dropped,
    })
}

/// Writes the text of a chain for so many vertices: refusals 2 and 1. The steps are not judged.
pub fn write_chain(vertices: usize, chain: &Chain) -> Result<Vec<u8>, Refusal> {
    let columns = raw::Steps {
        v: &chain.v,
        x: &chain.x,
        y: &chain.y,
        z: &chain.z,
        cost: &chain.cost,
    };
    written(CHAIN_TEXT, |text, length| {
        raw::write_chain(vertices, columns, chain.dropped, text, length)
    })
}

/// Reads an audit list for so many vertices: refusals 2, 1 and 14.
pub fn read_list(vertices: usize, text: &[u8]) -> Result<Vec<u16>, Refusal> {
    let mut edges = vec![0; EDGES];
    let mut count = 0;
    Refusal::judge(raw::read_list(vertices, text, &mut edges, &mut count))?;
    edges.truncate(count);
    Ok(edges)
}

/// Writes the audit list of rising edges for so many vertices: refusals 2 and 14.
pub fn write_list(vertices: usize, edges: &[u16]) -> Result<Vec<u8>, Refusal> {
    written(LIST_TEXT, |text, length| {
        raw::write_list(vertices, edges, text, length)
    })
}

/// What a writer puts into a buffer that takes every text of its kind.
pub(crate) fn written(
    room: usize,
    write: impl FnOnce(&mut [u8], &mut usize) -> u32,
) -> Result<Vec<u8>, Refusal> {
    let mut text = vec![0; room];
    let mut length = 0;
    Refusal::judge(write(&mut text, &mut length))?;
    text.truncate(length);
    Ok(text)
}
