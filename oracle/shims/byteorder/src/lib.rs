//! The part of `byteorder` that the real files use: big-endian reads and writes.

pub trait ByteOrder {
    fn read_u16(buf: &[u8]) -> u16;
    fn read_u24(buf: &[u8]) -> u32;
    fn read_u32(buf: &[u8]) -> u32;
    fn write_u16(buf: &mut [u8], n: u16);
    fn write_u24(buf: &mut [u8], n: u32);
    fn write_u32(buf: &mut [u8], n: u32);
}

pub enum BigEndian {}
pub type NetworkEndian = BigEndian;

impl ByteOrder for BigEndian {
    fn read_u16(buf: &[u8]) -> u16 {
        u16::from_be_bytes([buf[0], buf[1]])
    }
    fn read_u24(buf: &[u8]) -> u32 {
        u32::from_be_bytes([0, buf[0], buf[1], buf[2]])
    }
    fn read_u32(buf: &[u8]) -> u32 {
        u32::from_be_bytes([buf[0], buf[1], buf[2], buf[3]])
    }
    fn write_u16(buf: &mut [u8], n: u16) {
        buf[..2].copy_from_slice(&n.to_be_bytes());
    }
    fn write_u24(buf: &mut [u8], n: u32) {
        buf[..3].copy_from_slice(&n.to_be_bytes()[1..]);
    }
    fn write_u32(buf: &mut [u8], n: u32) {
        buf[..4].copy_from_slice(&n.to_be_bytes());
    }
}
