//! The operands that the kernels are run on.

/// A slice as it crosses to the library: a pointer and a length.
#[repr(C)]
#[derive(Clone, Copy)]
pub struct Rows<'a, T> {
    first: *const T,
    count: usize,
    lent: std::marker::PhantomData<&'a T>,
}

pub fn rows<T>(slice: &[T]) -> Rows<'_, T> {
    Rows {
        first: slice.as_ptr(),
        count: slice.len(),
        lent: std::marker::PhantomData,
    }
}

/// The types of numbers, as the library numbers them. It makes its rows of numbers of 64 bits.
#[derive(Clone, Copy)]
#[repr(u32)]
pub enum NumberType {
    I8,
    I32,
    I64,
    I128,
    I16,
    U8,
    U16,
    U32,
    U64,
}

/// Numbers that look random, the same in each run of the program.
pub struct Numbers(u64);

impl Numbers {
    /// Creates the numbers that follow `seed`, which is not 0.
    pub fn new(seed: u64) -> Numbers {
        Numbers(seed)
    }

    pub fn next(&mut self) -> u64 {
        self.0 ^= self.0 << 13;
        self.0 ^= self.0 >> 7;
        self.0 ^= self.0 << 17;
        self.0
    }
}

/// Returns `count` words that look random.
pub fn words(numbers: &mut Numbers, count: usize) -> Vec<u64> {
    (0..count).map(|_| numbers.next()).collect()
}

/// Rows of one run.
pub struct Data {
    pub left_i8: Vec<i8>,
    pub right_i8: Vec<i8>,
    pub left_i32: Vec<i32>,
    pub right_i32: Vec<i32>,
    pub left_i64: Vec<i64>,
    pub right_i64: Vec<i64>,
    pub left_i128: Vec<i128>,
    pub right_i128: Vec<i128>,
    pub bools: Vec<bool>,
    /// Words of validities, with one more than there are bits for.
    pub validities: Vec<u64>,
}

impl Data {
    pub fn new(count: usize) -> Data {
        let mut numbers = Numbers::new(88_172_645_463_325_252);
        let left_i64: Vec<i64> = (0..count).map(|_| numbers.next() as i64).collect();
        let right_i64: Vec<i64> = left_i64
            .iter()
            .map(|x| {
                if numbers.next() & 1 == 0 {
                    *x
                } else {
                    numbers.next() as i64
                }
            })
            .collect();
        Data {
            left_i8: left_i64.iter().map(|x| *x as i8).collect(),
            right_i8: right_i64.iter().map(|x| *x as i8).collect(),
            left_i32: left_i64.iter().map(|x| *x as i32).collect(),
            right_i32: right_i64.iter().map(|x| *x as i32).collect(),
            left_i128: left_i64.iter().map(|x| i128::from(*x)).collect(),
            right_i128: right_i64.iter().map(|x| i128::from(*x)).collect(),
            validities: words(&mut numbers, count.div_ceil(64) + 4),
            bools: left_i64.iter().map(|x| x & 2 != 0).collect(),
            left_i64,
            right_i64,
        }
    }

    /// Returns the number in the middle of the right rows, or 0 if there is none.
    pub fn middle(&self) -> i64 {
        let right = &self.right_i64;
        right.get(right.len() / 2).copied().unwrap_or(0)
    }
}
