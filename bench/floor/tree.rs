//! A map as a B-tree with 15 pairs in a node, keys beside keys and values beside values, as the kit's maps are laid out: a leaf takes a block
//! of the same size, and a node above it holds its edges apart.
use std::mem::MaybeUninit;
use std::ptr::{copy, drop_in_place};

pub const PAIRS: usize = 15;

/// Up to 15 pairs in place. One count serves both rows, as in the kit's nodes.
struct Pairs<K, V> {
    keys: [MaybeUninit<K>; PAIRS],
    values: [MaybeUninit<V>; PAIRS],
    len: u16,
}

/// Moves the items from an index on by one, and puts an item there.
fn put_in_row<T>(row: &mut [MaybeUninit<T>; PAIRS], len: usize, at: usize, item: T) {
    assert!(at <= len && len < PAIRS);
    let place = unsafe { row.as_mut_ptr().add(at) };
    unsafe { copy(place, place.add(1), len - at) };
    row[at].write(item);
}

impl<K, V> Pairs<K, V> {
    fn new() -> Self {
        Pairs { keys: [const { MaybeUninit::uninit() }; PAIRS], values: [const { MaybeUninit::uninit() }; PAIRS], len: 0 }
    }

    fn len(&self) -> usize {
        self.len as usize
    }

    fn keys(&self) -> &[K] {
        unsafe { &*(&self.keys[..self.len()] as *const [MaybeUninit<K>] as *const [K]) }
    }

    fn values(&mut self) -> &mut [V] {
        let len = self.len();
        unsafe { &mut *(&mut self.values[..len] as *mut [MaybeUninit<V>] as *mut [V]) }
    }

    fn insert(&mut self, at: usize, key: K, value: V) {
        let len = self.len();
        put_in_row(&mut self.keys, len, at, key);
        put_in_row(&mut self.values, len, at, value);
        self.len += 1;
    }

    fn push(&mut self, key: K, value: V) {
        self.insert(self.len(), key, value);
    }

    /// Takes the pairs from a place on.
    fn split_off(&mut self, at: usize) -> Self {
        let mut rest = Pairs::new();
        let moved = self.len() - at;
        unsafe { copy(self.keys.as_ptr().add(at), rest.keys.as_mut_ptr(), moved) };
        unsafe { copy(self.values.as_ptr().add(at), rest.values.as_mut_ptr(), moved) };
        (self.len, rest.len) = (at as u16, moved as u16);
        rest
    }

    fn pop(&mut self) -> Option<(K, V)> {
        self.len = self.len.checked_sub(1)?;
        let at = self.len();
        Some(unsafe { (self.keys[at].assume_init_read(), self.values[at].assume_init_read()) })
    }
}

impl<K, V> Drop for Pairs<K, V> {
    fn drop(&mut self) {
        let len = self.len();
        unsafe { drop_in_place(&mut self.keys[..len] as *mut [MaybeUninit<K>] as *mut [K]) };
        unsafe { drop_in_place(self.values()) };
    }
}

type Edges<K, V> = Vec<Box<Node<K, V>>>;

/// A leaf has no edges, and another node one more than pairs.
struct Node<K, V> {
    pairs: Pairs<K, V>,
    edges: Option<Box<Edges<K, V>>>,
}

/// A pair that goes up where a node was full, and the node after it.
type Split<K, V> = (K, V, Box<Node<K, V>>);

impl<K: Ord, V> Node<K, V> {
    fn new(edges: Option<Box<Edges<K, V>>>) -> Box<Self> {
        Box::new(Node { pairs: Pairs::new(), edges })
    }

    fn find(&self, key: &K) -> Result<usize, usize> {
        for (at, it) in self.pairs.keys().iter().enumerate() {
            if it >= key {
                return if it == key { Ok(at) } else { Err(at) };
            }
        }
        Err(self.pairs.len())
    }

    fn insert(&mut self, key: K, value: V) -> Option<Split<K, V>> {
        match (self.find(&key), &mut self.edges) {
            (Ok(at), _) => self.pairs.values()[at] = value,
            (Err(at), None) => return self.put(at, key, value, None),
            (Err(at), Some(edges)) => {
                let (key, value, after) = edges[at].insert(key, value)?;
                return self.put(at, key, value, Some(after));
            }
        }
        None
    }

    fn put(&mut self, at: usize, key: K, value: V, edge: Option<Box<Self>>) -> Option<Split<K, V>> {
        if self.pairs.len() < PAIRS {
            self.pairs.insert(at, key, value);
            if let (Some(edge), Some(edges)) = (edge, &mut self.edges) {
                edges.insert(at + 1, edge);
            }
            return None;
        }
        let half = PAIRS / 2;
        let mut after = Node::new(self.edges.as_mut().map(|edges| Box::new(edges.split_off(half + 1))));
        after.pairs = self.pairs.split_off(half + 1);
        let (middle, of_middle) = self.pairs.pop()?;
        if at <= half {
            self.put(at, key, value, edge);
        } else {
            after.put(at - half - 1, key, value, edge);
        }
        Some((middle, of_middle, after))
    }
}

pub struct Map<K, V> {
    root: Option<Box<Node<K, V>>>,
    len: usize,
    height: usize,
}

impl<K: Ord, V> Map<K, V> {
    pub fn new() -> Self {
        Map { root: None, len: 0, height: 0 }
    }

    pub fn is_empty(&self) -> bool {
        self.root.is_none()
    }

    pub fn get_mut(&mut self, key: &K) -> Option<&mut V> {
        let mut node = self.root.as_mut()?;
        loop {
            match node.find(key) {
                Ok(at) => return node.pairs.values().get_mut(at),
                Err(at) => node = node.edges.as_mut()?.get_mut(at)?,
            }
        }
    }

    pub fn insert(&mut self, key: K, value: V) {
        let root = self.root.get_or_insert_with(|| Node::new(None));
        if let Some((key, value, after)) = root.insert(key, value) {
            let before = std::mem::replace(root, Node::new(None));
            root.edges = Some(Box::new(vec![before, after]));
            root.pairs.push(key, value);
            self.height += 1;
        }
        self.len += 1;
    }

    /// Of pairs whose keys rise: full nodes, and a pair between each two.
    pub fn from_rising(pairs: Vec<(K, V)>) -> Self {
        let (mut nodes, mut between) = (vec![], vec![]);
        let (len, mut height, mut node) = (pairs.len(), 0, Node::new(None));
        for (key, value) in pairs {
            if node.pairs.len() == PAIRS {
                nodes.push(std::mem::replace(&mut node, Node::new(None)));
                between.push((key, value));
            } else {
                node.pairs.push(key, value);
            }
        }
        nodes.push(node);
        while nodes.len() > 1 {
            (nodes, between) = level_above(nodes, between);
            height += 1;
        }
        Map { root: nodes.pop(), len, height }
    }
}

/// The nodes over some nodes with a pair between each two, and the pairs between these.
fn level_above<K: Ord, V>(below: Edges<K, V>, between: Vec<(K, V)>) -> (Edges<K, V>, Vec<(K, V)>) {
    let (mut nodes, mut left) = (vec![], vec![]);
    let mut below = below.into_iter();
    let mut node = Node::new(Some(Box::new(below.next().into_iter().collect())));
    for ((key, value), edge) in between.into_iter().zip(below) {
        if node.pairs.len() == PAIRS {
            nodes.push(std::mem::replace(&mut node, Node::new(Some(Box::new(vec![edge])))));
            left.push((key, value));
        } else {
            node.pairs.push(key, value);
            node.edges.get_or_insert_with(Box::default).push(edge);
        }
    }
    nodes.push(node);
    (nodes, left)
}
