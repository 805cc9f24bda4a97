//! Random segment ids and file names.
use crate::random::Random;

pub fn id(random: &mut Random) -> u64 {
    let any = random.number();
    random.pick(&[0, 1, 9, 10, 99_999_999, 100_000_000, 1 << 32, u64::MAX - 2, u64::MAX - 1, u64::MAX, any, any])
}

fn digits(random: &mut Random) -> String {
    let id = id(random);
    match random.weighted(&[4, 2, 1, 1, 1, 1, 1]) {
        0 => format!("{id:08}"),
        1 => format!("{id}"),
        2 => format!("+{id}"),
        3 => format!("-{id}"),
        4 => format!("{id:032}"),
        5 => format!("{}", u128::from(u64::MAX) + u128::from(id)),
        _ => String::new(),
    }
}

/// A name such as the log writes, or one beside it, in UTF-8.
pub fn name(random: &mut Random) -> Vec<u8> {
    let before = ["wal-", "wal", "wal--", "wal-wal-", "WAL-", "", "wal-+"][random.weighted(&[12, 1, 1, 1, 1, 1, 1])];
    let after = [".log", ".lo", "log", ".log.log", ".LOG", "", " .log"][random.weighted(&[12, 1, 1, 1, 1, 1, 1])];
    let mut name = format!("{before}{}{after}", digits(random)).into_bytes();
    if random.chance(20) && !name.is_empty() {
        let at = random.below(name.len());
        name[at] = random.below(128) as u8;
    }
    name
}
