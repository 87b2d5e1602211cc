//! Lent lists and buffers.

use std::fmt::{Arguments, Debug};

use crate::reference::Answer;

/// The proved function and the second calculation, each lent lists that hold the same as `before`, give the same answer and
/// leave the same, and a refusal changes nothing. Answers what they gave and left.
pub fn compare_lists<T: Clone + Debug + PartialEq, const N: usize>(
    before: [&[T]; N],
    proved: impl FnOnce([&mut [T]; N]) -> Answer,
    second: impl FnOnce([&mut [T]; N]) -> Answer,
    input: Arguments,
) -> (Answer, [Vec<T>; N]) {
    let (mut lists, mut second_lists) = (before.map(<[T]>::to_vec), before.map(<[T]>::to_vec));
    let answer = proved(lists.each_mut().map(Vec::as_mut_slice));
    let second_answer = second(second_lists.each_mut().map(Vec::as_mut_slice));
    let places = before.map(<[T]>::len);
    assert_eq!(answer, second_answer, "{places:?} places, {input}");
    assert_eq!(lists, second_lists, "{places:?} places, {input}");
    if answer.is_err() {
        assert_eq!(lists, before, "a refusal changes nothing: {places:?} places, {input}");
    }
    (answer, lists)
}

/// The same with one list.
pub fn compare<T: Clone + Debug + PartialEq>(
    before: &[T],
    proved: impl FnOnce(&mut [T]) -> Answer,
    second: impl FnOnce(&mut [T]) -> Answer,
    input: Arguments,
) -> (Answer, Vec<T>) {
    let (answer, [list]) = compare_lists([before], |[list]| proved(list), |[list]| second(list), input);
    (answer, list)
}
