//! Arrays in threads.

use dunkelva::{equal, wrapping_sum, Array, BitBuffer, Bitmap, Buffer, Error, Mask};
use std::thread;

fn is_shared<T: Send + Sync>() {}

#[test]
fn types_can_be_sent_and_shared() {
    is_shared::<Array<'_>>();
    is_shared::<Bitmap<'_>>();
    is_shared::<BitBuffer<'_>>();
    is_shared::<Buffer<'_, i64>>();
    is_shared::<Mask>();
    is_shared::<Error>();
}

#[test]
fn eight_threads_use_the_same_arrays() {
    let numbers: Vec<i64> = (0..50_000).collect();
    let words: Vec<String> = numbers
        .iter()
        .map(|it| format!("word {}", it % 1000))
        .collect();
    let words: Array<'_> = words.iter().collect();
    let fields = [("number", Array::numbers(&numbers)), ("word", words)];
    let rows = Array::structs(numbers.len(), fields).unwrap();
    let numbers = Array::numbers(&numbers);
    thread::scope(|scope| {
        for _ in 0..8 {
            scope.spawn(|| {
                assert!(equal(&rows, &rows).unwrap().all());
                assert_eq!(wrapping_sum(&numbers), Ok(Some(49_999 * 25_000)));
            });
        }
    });
}
