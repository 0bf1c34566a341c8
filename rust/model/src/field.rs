//! One field of a record: its place, its range, and its number in bytes.

/// A record's mark and issue number, which every record begins with.
pub const HEAD: usize = 6;

/// The hour from which a dated record counts. It takes every value and is no part of the key.
pub const FIRST_HOUR: Field = Field::first(4, 0, 4_294_967_295);

/// What a field does beside holding a number.
#[derive(Clone, Copy, Debug, PartialEq, Eq)]
pub enum Role {
    Plain,
    /// Part of the key.
    Key,
    /// A money amount, which a raise may move.
    Money,
}

/// One field: where it lies in its record, and the values it may take.
#[derive(Clone, Copy, Debug, PartialEq, Eq)]
pub struct Field {
    pub at: usize,
    pub width: usize,
    pub lowest: i128,
    pub highest: i128,
    /// 0 is allowed too, though it lies below `lowest`.
    pub or_zero: bool,
    pub signed: bool,
    pub role: Role,
}

impl Field {
    /// The first field, right behind the head.
    pub const fn first(width: usize, lowest: i128, highest: i128) -> Field {
        Field {
            at: HEAD,
            width,
            lowest,
            highest,
            or_zero: false,
            signed: lowest < 0,
            role: Role::Plain,
        }
    }

    /// The field that follows this one.
    pub const fn next(self, width: usize, lowest: i128, highest: i128) -> Field {
        Field {
            at: self.at + self.width,
            ..Field::first(width, lowest, highest)
        }
    }

    /// The field in a dated record, where it stands behind the first hour.
    pub const fn dated(self) -> Field {
        self.behind(FIRST_HOUR)
    }

    /// The field in a record that has one field more, the first.
    pub const fn behind(self, first: Field) -> Field {
        Field {
            at: self.at + first.width,
            ..self
        }
    }

    pub const fn or_zero(self) -> Field {
        Field {
            or_zero: true,
            ..self
        }
    }

    pub const fn key(self) -> Field {
        Field {
            role: Role::Key,
            ..self
        }
    }

    pub const fn money(self) -> Field {
        Field {
            role: Role::Money,
            ..self
        }
    }

    /// The field's number in a whole record: big-endian; signed ones, which all have 4 bytes, in
    /// two's complement.
    pub fn read(&self, record: &[u8]) -> i128 {
        match record[self.at..self.at + self.width] {
            [a] => a.into(),
            [a, b] => u16::from_be_bytes([a, b]).into(),
            [a, b, c, d] if self.signed => i32::from_be_bytes([a, b, c, d]).into(),
            [a, b, c, d] => u32::from_be_bytes([a, b, c, d]).into(),
            ref bytes => u64::from_be_bytes(bytes.try_into().expect("8 bytes")).into(),
        }
    }

    /// Writes a number that the field's bytes can hold, in range or not.
    pub fn write(&self, record: &mut [u8], number: i128) {
        let bytes = number.to_be_bytes();
        record[self.at..self.at + self.width].copy_from_slice(&bytes[16 - self.width..]);
    }

    pub fn allows(&self, number: i128) -> bool {
        (self.lowest..=self.highest).contains(&number) || self.or_zero && number == 0
    }
}

#[cfg(test)]
mod tests {
    use super::*;

    #[test]
    fn a_negative_price_is_not_read_as_unsigned() {
        let mut record = [0; 11];
        let price_field = Field::first(4, -200_000, 200_000);
        for price in [-200_000, -1, 0, 1, 200_000, i128::from(i32::MIN)] {
            price_field.write(&mut record, price);
            assert_eq!(price_field.read(&record), price);
        }
    }
}
