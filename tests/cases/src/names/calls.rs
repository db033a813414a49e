//! Somebody's four calls: the library's, the right model's or a wrong copy's.

use std::rc::Rc;

use model::{names_back, names_is_read, names_mark, names_move};
use model::{Calls, NamesFault, Planned, Returned, State, Told};

type IsRead = dyn Fn(State, &[u8], usize, &[u8]) -> Told;
type Mark = dyn Fn(State, bool, &[u8], usize, &[u8], &mut [u8]) -> Planned;
type Move = dyn Fn(State, bool, &[u8], usize, usize, &[u8], &mut [u8]) -> Planned;
type Back = dyn Fn(State, bool, &[u8], usize, usize, &[u8], &mut [u8]) -> Returned;

#[derive(Clone)]
pub struct Names {
    pub is_read: Rc<IsRead>,
    pub mark: Rc<Mark>,
    /// From the book to the names.
    pub there: Rc<Move>,
    pub back: Rc<Back>,
}

impl Names {
    pub fn of<C: Calls + 'static>() -> Self {
        Self {
            is_read: Rc::new(C::names_is_read),
            mark: Rc::new(C::names_mark),
            there: Rc::new(C::names_move),
            back: Rc::new(C::names_back),
        }
    }

    /// The copy of the model with this fault.
    pub fn wrong(fault: NamesFault) -> Self {
        Self {
            is_read: Rc::new(move |state, array, sector, name| {
                names_is_read(fault, state, array, sector, name)
            }),
            mark: Rc::new(move |state, wp_high, array, sector, name, buffer| {
                names_mark(fault, state, wp_high, array, sector, name, buffer)
            }),
            there: Rc::new(move |state, wp_high, array, book, sector, list, buffer| {
                names_move(fault, state, wp_high, array, [book, sector], list, buffer)
            }),
            back: Rc::new(move |state, wp_high, array, sector, book, list, buffer| {
                names_back(fault, state, wp_high, array, [sector, book], list, buffer)
            }),
        }
    }
}
