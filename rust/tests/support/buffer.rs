//! Bytes inside a larger allocation, with margins before and behind them that must stay as they are. Without margins the
//! allocation is just as long as its contents, so that a memory checker sees a read past them.

pub struct Buffer {
    bytes: Box<[u8]>,
    margin: usize,
}

impl Buffer {
    pub fn new(contents: &[u8], margin: usize) -> Buffer {
        let length = contents.len() + 2 * margin;
        let mut bytes: Box<[u8]> = (0..length).map(fence).collect();
        bytes[margin..length - margin].copy_from_slice(contents);
        Buffer { bytes, margin }
    }

    pub fn contents(&self) -> &[u8] {
        &self.bytes[self.margin..self.bytes.len() - self.margin]
    }

    pub fn contents_mut(&mut self) -> &mut [u8] {
        let end = self.bytes.len() - self.margin;
        &mut self.bytes[self.margin..end]
    }

    pub fn margins_kept(&self) -> bool {
        let outside = (0..self.margin).chain(self.bytes.len() - self.margin..self.bytes.len());
        outside.into_iter().all(|i| self.bytes[i] == fence(i))
    }
}

fn fence(i: usize) -> u8 {
    (i as u8).wrapping_mul(167).wrapping_add(91)
}
