//! Sound files: records grouped in data blocks, and an index over them.

use super::image::{Content, Entry, Image, Plan, Target};
use super::keys::Keys;
use super::random::Random;

/// No index block has a higher level.
const HIGHEST_LEVEL: u8 = 63;

/// A sound file to be made.
#[derive(Debug, Clone)]
pub struct Tree {
    /// The records of each data block. All of them together rise; no group is empty.
    pub groups: Vec<Vec<Vec<u8>>>,
    /// Entries per index block on level 1, 2 and so on; the last one serves all levels above.
    pub fan_out: Vec<usize>,
    /// Where given, index blocks have from one entry up to those, drawn from this seed.
    pub ragged: Option<u64>,
    /// The root's level is at least this.
    pub root_level: u8,
    /// How keys are chosen.
    pub keys: Keys,
    /// Where index blocks stand.
    pub placing: Placing,
    /// Reserved blocks: before which ordinary block, level, payload.
    pub reserved: Vec<(usize, u8, Vec<u8>)>,
    /// The metadata.
    pub metadata: Vec<u8>,
    /// Header bytes to be ignored.
    pub extra: Vec<u8>,
}

/// Where index blocks stand in the file.
#[derive(Debug, Clone, Copy, PartialEq, Eq)]
pub enum Placing {
    /// After all data blocks, level by level, the root last.
    After,
    /// Before all data blocks, the root first.
    Before,
    /// Each after all that it leads to.
    AfterChildren,
    /// Each before all that it leads to.
    BeforeChildren,
    /// All of them after the first data block.
    AfterFirst,
    /// Each anywhere, drawn from this seed.
    Scattered(u64),
}

/// A block of the tree, not yet placed.
struct Node {
    level: u8,
    children: Vec<usize>,
    /// The first group that it leads to.
    group: usize,
}

impl Tree {
    /// A file of these groups with plain choices for all the rest.
    pub fn new<R: AsRef<[u8]>>(groups: &[&[R]]) -> Self {
        let group = |records: &&[R]| records.iter().map(|r| r.as_ref().to_vec()).collect();
        Tree {
            groups: groups.iter().map(group).collect(),
            fan_out: vec![usize::MAX],
            ragged: None,
            root_level: 1,
            keys: Keys::FirstRecord,
            placing: Placing::After,
            reserved: Vec::new(),
            metadata: b"{}".to_vec(),
            extra: Vec::new(),
        }
    }

    /// The file.
    pub fn bytes(&self) -> Vec<u8> {
        self.image().bytes()
    }

    /// The file, open to be changed. Without groups it has no blocks.
    pub fn image(&self) -> Image {
        let mut image = if self.groups.is_empty() {
            Image::new(Vec::new())
        } else {
            self.blocks_and_root()
        };
        image.metadata = self.metadata.clone();
        image.extra = self.extra.clone();
        image
    }

    fn blocks_and_root(&self) -> Image {
        let nodes = self.nodes();
        let order = self.file_order(&nodes);
        let block_of = self.block_numbers(&order);
        let mut blocks = Vec::new();
        for (number, node) in order.iter().enumerate() {
            blocks.extend(self.reserved_before(number));
            blocks.push(self.plan(&nodes, *node, &block_of));
        }
        blocks.extend(self.reserved_after(order.len()));
        let mut image = Image::new(blocks);
        image.root = Target::Block(block_of[nodes.len() - 1]);
        image
    }

    /// All blocks, children before parents, the root last.
    fn nodes(&self) -> Vec<Node> {
        let leaf = |group| Node {
            level: 0,
            children: Vec::new(),
            group,
        };
        let mut nodes: Vec<Node> = (0..self.groups.len()).map(leaf).collect();
        let mut row: Vec<usize> = (0..nodes.len()).collect();
        let mut level = 0;
        while level < 1 || row.len() > 1 || level < self.root_level.min(HIGHEST_LEVEL) {
            level += 1;
            let mut above = Vec::new();
            for children in self.share_out(&row, level) {
                above.push(nodes.len());
                let group = children.first().map_or(0, |child| nodes[*child].group);
                nodes.push(Node {
                    level,
                    children,
                    group,
                });
            }
            row = above;
        }
        nodes
    }

    /// Gives each index block on a level its children.
    fn share_out(&self, row: &[usize], level: u8) -> Vec<Vec<usize>> {
        let most = self.entries_on(level);
        let mut random = self
            .ragged
            .map(|seed| Random::new(seed ^ u64::from(level)))
            .filter(|_| level < HIGHEST_LEVEL);
        let mut shares = Vec::new();
        let mut left = row;
        while !left.is_empty() {
            let entries = random.as_mut().map_or(most, |r| 1 + r.below(most));
            let (share, rest) = left.split_at(entries.min(left.len()));
            shares.push(share.to_vec());
            left = rest;
        }
        shares
    }

    /// Entries per index block on a level. The highest level has room for all.
    fn entries_on(&self, level: u8) -> usize {
        let given = self.fan_out.get(usize::from(level) - 1);
        let entries = match given {
            Some(entries) => *entries,
            None => self.fan_out.last().map_or(2, |entries| (*entries).max(2)),
        };
        match level {
            HIGHEST_LEVEL => usize::MAX,
            _ => entries.max(1),
        }
    }

    /// The blocks in the order in which they are to stand.
    fn file_order(&self, nodes: &[Node]) -> Vec<usize> {
        let data = self.groups.len();
        let root = nodes.len() - 1;
        let index = data..nodes.len();
        match self.placing {
            Placing::After => (0..nodes.len()).collect(),
            Placing::Before => index.rev().chain(0..data).collect(),
            Placing::AfterFirst => (0..1).chain(index.rev()).chain(1..data).collect(),
            Placing::AfterChildren => subtree_order(nodes, root, false),
            Placing::BeforeChildren => subtree_order(nodes, root, true),
            Placing::Scattered(seed) => scatter(seed, data, nodes.len()),
        }
    }

    /// For each node, which block of the file it becomes, reserved ones counted.
    fn block_numbers(&self, order: &[usize]) -> Vec<usize> {
        let mut numbers = vec![0; order.len()];
        let mut next = 0;
        for (position, node) in order.iter().enumerate() {
            next += self.reserved_before(position).count();
            numbers[*node] = next;
            next += 1;
        }
        numbers
    }

    fn reserved_before(&self, position: usize) -> impl Iterator<Item = Plan> + '_ {
        let here = self
            .reserved
            .iter()
            .filter(move |(at, _, _)| *at == position);
        here.map(|(_, level, payload)| Plan::bytes(*level, payload))
    }

    fn reserved_after(&self, blocks: usize) -> impl Iterator<Item = Plan> + '_ {
        let here = self.reserved.iter().filter(move |(at, _, _)| *at >= blocks);
        here.map(|(_, level, payload)| Plan::bytes(*level, payload))
    }

    fn plan(&self, nodes: &[Node], node: usize, block_of: &[usize]) -> Plan {
        if nodes[node].level == 0 {
            return Plan::data(&self.groups[nodes[node].group]);
        }
        let entry = |child: &usize| Entry {
            key: self.key(*child, nodes[*child].group),
            target: Target::Block(block_of[*child]),
        };
        let entries = nodes[node].children.iter().map(entry).collect();
        Plan::new(Some(nodes[node].level), Content::Entries(entries))
    }

    /// A key for the block `node`, which leads to `group` first.
    fn key(&self, node: usize, group: usize) -> Vec<u8> {
        let first = self.groups[group].first().cloned().unwrap_or_default();
        let last_group = self.groups[..group].last();
        let before = last_group.and_then(|records| records.last()).cloned();
        self.keys.choose(node, before, first)
    }
}

/// Gives the data blocks in order, and each index block at a place drawn from the seed.
fn scatter(seed: u64, data: usize, all: usize) -> Vec<usize> {
    let mut random = Random::new(seed);
    let mut order: Vec<usize> = (0..data).collect();
    for node in data..all {
        order.insert(random.below(order.len() + 1), node);
    }
    order
}

/// The blocks below and with `node`, parents before or after their children.
fn subtree_order(nodes: &[Node], node: usize, parents_first: bool) -> Vec<usize> {
    let mut order = Vec::new();
    if parents_first {
        order.push(node);
    }
    for child in &nodes[node].children {
        order.extend(subtree_order(nodes, *child, parents_first));
    }
    if !parents_first {
        order.push(node);
    }
    order
}
