//! crc: the port's CRC of each line of hexadecimal on standard input.
fn main() {
    for line in std::io::stdin().lines() {
        println!("{:08x}", scte35::crc(&differ::answer::unhex(&line.expect("text"))));
    }
}
