//! Each case has the paper's number, or the C face's.

use montrakit::{Access, Code, Counting, Refusal, Refused, Silence, State, Task};

/// Exactly the numbers given mean something, and each case found by its number has it.
fn are_numbered<T: Copy>(of_number: fn(u8) -> Option<T>, number: fn(T) -> u8, numbers: &[u8]) {
    let found: Vec<u8> = (0..=u8::MAX).filter_map(of_number).map(number).collect();
    assert_eq!(found, numbers);
}

#[test]
fn all_numbers() {
    are_numbered(Counting::of_number, Counting::number, &[0, 1]);
    are_numbered(State::of_number, State::number, &[0, 1, 2]);
    are_numbered(Access::of_number, Access::number, &[0, 1]);
    are_numbered(Refusal::of_number, Refusal::number, &[1, 2, 3, 4]);
    let silences = [10, 11, 12, 13, 14, 15];
    are_numbered(Silence::of_number, Silence::number, &silences);
    are_numbered(Code::of_number, Code::number, &[1, 2, 3, 4, 8]);
    are_numbered(Refused::of_number, Refused::number, &[70, 71, 72]);
}

#[test]
fn cases_and_their_numbers() {
    assert_eq!(
        [Counting::ModBus, Counting::JBus].map(Counting::number),
        [0, 1]
    );
    let states = [State::Ready, State::NotReady, State::AtTheKeyboard];
    assert_eq!(states.map(State::number), [0, 1, 2]);
    assert_eq!(
        [Access::ReadOnly, Access::ReadWrite].map(Access::number),
        [0, 1]
    );
    let codes = [
        Code::Function,
        Code::Address,
        Code::Value,
        Code::NotReady,
        Code::ReadOnly,
    ];
    assert_eq!(codes.map(Code::number), [1, 2, 3, 4, 8]);
}

#[test]
fn tasks_on_the_line() {
    let tasks = [
        (Task::ReadBits01(3), 0x01, 3),
        (Task::ReadBits02(256), 0x02, 256),
        (Task::ReadWords03(80), 0x03, 80),
        (Task::ReadWords04(1), 0x04, 1),
        (Task::WriteBit05(true), 0x05, 0xFF00),
        (Task::WriteBit05(false), 0x05, 0x0000),
        (Task::WriteWord06(1000), 0x06, 1000),
        (Task::WriteBits0F(9), 0x0F, 9),
        (Task::WriteWords10(2), 0x10, 2),
    ];
    for (task, number, value) in tasks {
        assert_eq!((task.number(), task.value()), (number, value), "{task:?}");
    }
}
