//! The name of a job's picture.

/// J, ten digits, three digits, .jpg: no name is longer.
pub const NAME_MOST: usize = 18;

/// A name and its length; the bytes behind it are 0. What a record in Idle holds may be any bytes.
#[derive(Clone, Copy, PartialEq, Eq, Debug)]
pub struct Name {
    pub bytes: [u8; NAME_MOST],
    pub length: u8,
}

impl Name {
    /// The fresh record's last name, which no job has.
    pub const EMPTY: Name = Name { bytes: [0; NAME_MOST], length: 0 };

    /// "The name is J, ten digits of job, three digits of SideNumber if Append is 1, then .jpg."
    #[inline]
    pub fn new(job: u32, append: u8, side_number: u16) -> Name {
        let mut bytes = *b"J0000000000.jpg\0\0\0";
        bytes[1] = b'0' + (job / 1_000_000_000) as u8;
        bytes[2..5].copy_from_slice(&three(job / 1_000_000 % 1000));
        bytes[5..8].copy_from_slice(&three(job / 1000 % 1000));
        bytes[8..11].copy_from_slice(&three(job % 1000));
        if append != 1 {
            return Name { bytes, length: 15 };
        }
        bytes[11..14].copy_from_slice(&three(u32::from(side_number) % 1000));
        bytes[14..].copy_from_slice(b".jpg");
        Name { bytes, length: NAME_MOST as u8 }
    }
}

/// A number below 1000 in three digits.
#[inline]
fn three(number: u32) -> [u8; 3] {
    let [hundreds, tens, ones, _] = THREE[number as usize];
    [hundreds, tens, ones]
}

/// The numbers 0 to 999 in three digits, with a space behind.
pub(crate) static THREE: [[u8; 4]; 1000] = {
    let mut table = [[b' '; 4]; 1000];
    let mut number = 0;
    while number < 1000 {
        table[number as usize] = three_digits(number);
        number += 1;
    }
    table
};

pub(crate) const fn three_digits(number: u32) -> [u8; 4] {
    [b'0' + (number / 100) as u8, b'0' + (number / 10 % 10) as u8, b'0' + (number % 10) as u8, b' ']
}
