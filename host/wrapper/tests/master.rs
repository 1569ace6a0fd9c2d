//! The master's half through the wrapper, on frames of 004, 2.8 and 4.3.

use montrakit::{build, read, Built, Code, Reading, Refused, Request, Task};

fn request(station: u8, task: Task, start: u16) -> Request {
    Request {
        station,
        task,
        start,
    }
}

#[test]
fn published_requests() {
    let mut frame = [0xAA; 256];
    let built = build(request(20, Task::ReadWords03(2), 1), &[], &mut frame);
    let wanted = [0x14, 0x03, 0x00, 0x01, 0x00, 0x02, 0x97, 0x0E];
    assert_eq!(built, Built::Frame(&wanted));
    assert_eq!(frame[8..], [0xAA; 248]);
    let built = build(request(20, Task::WriteBit05(true), 24), &[], &mut frame);
    let wanted = [0x14, 0x05, 0x00, 0x18, 0xFF, 0x00, 0x0E, 0xF8];
    assert_eq!(built, Built::Frame(&wanted));
    let data = [0x80, 0x00, 0x44, 0x09];
    let built = build(request(1, Task::WriteWords10(2), 0xFB), &data, &mut frame);
    let wanted = [
        0x01, 0x10, 0x00, 0xFB, 0x00, 0x02, 0x04, 0x80, 0x00, 0x44, 0x09, 0x67, 0x9E,
    ];
    assert_eq!(built, Built::Frame(&wanted));
}

#[test]
fn replies() {
    let two_words = request(20, Task::ReadWords03(2), 1);
    let reply = [0x14, 0x03, 0x04, 0x03, 0xE8, 0x01, 0xF4, 0x3E, 0x95];
    let exception = [0x14, 0x86, 0x08, 0x52, 0x62];
    let mut out = [0xAA; 256];
    let reading = read(two_words, &reply, &mut out);
    assert_eq!(reading, Reading::Values(&[0x03, 0xE8, 0x01, 0xF4]));
    assert_eq!(out[4..], [0xAA; 252]);
    let off = request(20, Task::WriteBit05(false), 24);
    let echo = [0x14, 0x05, 0x00, 0x18, 0x00, 0x00, 0x4F, 0x08];
    assert_eq!(read(off, &echo, &mut out), Reading::Written);
    let word = request(20, Task::WriteWord06(1), 8);
    let reading = read(word, &exception, &mut out);
    assert_eq!(reading, Reading::Exception(Code::ReadOnly));
    let misfit = Reading::Refused(Refused::Reply);
    assert_eq!(read(two_words, &exception, &mut out), misfit);
    let damaged = Reading::Refused(Refused::CheckWord);
    assert_eq!(read(two_words, &reply[..8], &mut out), damaged);
}

#[test]
fn out_of_limits() {
    let mut frame = [0xAA; 256];
    let refused = Built::Refused(Refused::Request);
    for task in [
        Task::ReadBits01(0),
        Task::ReadBits02(257),
        Task::ReadWords04(81),
    ] {
        assert_eq!(build(request(20, task, 1), &[], &mut frame), refused);
        let reading = read(request(20, task, 1), &[], &mut frame);
        assert_eq!(reading, Reading::Refused(Refused::Request));
    }
    let bits = request(20, Task::WriteBits0F(9), 1);
    assert_eq!(build(bits, &[0xFF], &mut frame), refused);
    assert_eq!(
        build(request(0, bits.task, 1), &[0, 0], &mut frame),
        refused
    );
    assert_eq!(build(bits, &[0, 0], &mut frame[..255]), refused);
    assert_eq!(frame, [0xAA; 256]);
}
