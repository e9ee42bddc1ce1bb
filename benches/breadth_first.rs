//! A plain breadth-first search over kept adjacency lists.

/// For each node, the other end and the number of each of its devices.
pub struct Lists(Vec<Vec<(u16, u16)>>);

impl Lists {
    /// The lists of so many nodes and of devices by their two ends.
    pub fn new(nodes: usize, devices: impl IntoIterator<Item = (u16, u16)>) -> Lists {
        let mut lists = vec![Vec::new(); nodes];
        for (number, (a, b)) in devices.into_iter().enumerate() {
            lists[a as usize].push((b, number as u16));
            lists[b as usize].push((a, number as u16));
        }
        Lists(lists)
    }

    /// Which nodes closed devices lead to from node 0. The queue is kept between searches.
    pub fn reached(&self, closed: &[u8], queue: &mut Vec<u16>) -> Vec<bool> {
        let mut reached = vec![false; self.0.len()];
        reached[0] = true;
        queue.clear();
        queue.push(0);
        let mut next = 0;
        while let Some(&node) = queue.get(next) {
            next += 1;
            for &(other, device) in &self.0[node as usize] {
                if closed[device as usize] != 0 && !reached[other as usize] {
                    reached[other as usize] = true;
                    queue.push(other);
                }
            }
        }
        reached
    }
}
