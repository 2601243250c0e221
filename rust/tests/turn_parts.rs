//! Tests of streams of TURN, data on channels, and users whose names expire.

mod pair;

use pair::{Rng, times};
use seatcrane_stun::auth::NamedUser::{ByHash, ByName};
use seatcrane_stun::endpoint::{FrameBuffer, StreamError, TimeLimitedUsers, UnixTime};
use seatcrane_stun::extra::turn::ChannelData;

const MESSAGE: &[u8] = b"\0\x01\0\x08\x21\x12\xa4\x42 any 12 byte\0\x24\0\x04\0\0\0\0";

#[test]
fn channel_data() {
    for (channel, is_one) in [
        (0x3FFF, false),
        (0x4000, true),
        (0x4FFF, true),
        (0x7FFF, true),
        (0x8000, false),
        (0, false),
    ] {
        assert_eq!(
            ChannelData::new(channel, b"").is_some(),
            is_one,
            "{channel}"
        );
    }
    let (most, more) = (vec![7; 65535], vec![7; 65536]);
    assert_eq!(ChannelData::new(0x4000, &more), None);
    for (length, padded) in [
        (0, 4),
        (1, 8),
        (2, 8),
        (3, 8),
        (4, 8),
        (5, 12),
        (65535, 65540),
    ] {
        let data = ChannelData::new(0x4abc, &most[..length]).unwrap();
        let (mut bytes, mut stream) = (b"before".to_vec(), b"before".to_vec());
        data.write(&mut bytes);
        data.write_padded(&mut stream);
        let (bytes, stream) = (&bytes[6..], &stream[6..]);
        assert_eq!((bytes.len(), stream.len()), (4 + length, padded));
        for bytes in [bytes, stream] {
            let read = ChannelData::from_bytes(bytes).unwrap();
            assert_eq!((read.channel(), read.data()), (0x4abc, &most[..length]));
        }
        // An incomplete message.
        for cut in [0, 1, 3, 3 + length]
            .into_iter()
            .filter(|cut| *cut < bytes.len())
        {
            assert_eq!(ChannelData::from_bytes(&bytes[..cut]), None);
        }
    }
    assert_eq!(ChannelData::from_bytes(MESSAGE), None);
    assert_eq!(ChannelData::from_bytes(b"\x80\0\0\0"), None);
    let shown = format!("{:?}", ChannelData::new(0x4001, b"secret").unwrap());
    assert_eq!(shown, "ChannelData(0x4001, 6 bytes)");
}

/// A stream that arrives in pieces is cut into the frames that it was made of, wherever the pieces
/// end.
#[test]
fn streams_are_cut_where_frames_end() {
    for seed in 0..times("STREAMS", 200) {
        let mut rng = Rng(seed);
        let frames: Vec<Vec<u8>> = (0..rng.below(20))
            .map(|_| match rng.below(3) {
                0 => MESSAGE.to_vec(),
                _ => {
                    let data = vec![9; rng.below(300) as usize];
                    let mut frame = Vec::new();
                    ChannelData::new(0x4000, &data)
                        .unwrap()
                        .write_padded(&mut frame);
                    frame
                }
            })
            .collect();
        let (stream, mut buffer) = (frames.concat(), FrameBuffer::for_turn().longest(304));
        let (mut popped, mut rest) = (Vec::new(), &stream[..]);
        while !rest.is_empty() {
            let (next, after) = rest.split_at(1 + rng.below(rest.len() as u64) as usize);
            buffer.push(next);
            rest = after;
            for _ in 0..rng.below(4) {
                popped.extend(buffer.pop().unwrap().map(<[u8]>::to_vec));
            }
        }
        while let Some(frame) = buffer.pop().unwrap() {
            popped.push(frame.to_vec());
        }
        assert_eq!((popped, buffer.waiting()), (frames, 0), "seed {seed}");
    }
}

#[test]
fn streams_that_cannot_be_read() {
    let pushed = |mut buffer: FrameBuffer, bytes: &[u8]| {
        buffer.push(bytes);
        let popped = buffer.pop().map(|frame| frame.map(<[u8]>::to_vec));
        let again = buffer.pop().map(|frame| frame.map(<[u8]>::to_vec));
        assert!(popped.is_ok() || popped == again);
        popped
    };
    let (not_stun, too_long) = (Err(StreamError::NotStun), Err(StreamError::TooLong));
    assert_eq!(pushed(FrameBuffer::new(), b"\x40\0\0\0"), not_stun);
    assert_eq!(
        pushed(FrameBuffer::for_turn(), b"\x40\0\0\0")
            .unwrap()
            .unwrap()
            .len(),
        4
    );
    assert_eq!(pushed(FrameBuffer::for_turn(), b"\x80"), not_stun);
    // A header alone, and a whole message.
    for bytes in [&MESSAGE[..20], MESSAGE] {
        assert_eq!(pushed(FrameBuffer::new().longest(27), bytes), too_long);
        assert_eq!(pushed(FrameBuffer::for_turn().longest(27), bytes), too_long);
        assert!(pushed(FrameBuffer::new().longest(28), bytes).is_ok());
        assert!(pushed(FrameBuffer::default(), bytes).is_ok());
    }
    assert_eq!(
        pushed(FrameBuffer::for_turn().longest(8), b"\x40\0\0\x05"),
        too_long
    );
    assert_eq!(
        pushed(FrameBuffer::for_turn().longest(8), b"\x40\0\0\x04"),
        Ok(None)
    );
}

/// If each pop is followed by a push, each byte is moved at most once on average.
#[test]
fn a_full_buffer_is_emptied_in_linear_time() {
    let mut buffer = FrameBuffer::for_turn();
    buffer.push(&b"\x40\0\0\0".repeat(1 << 18));
    let begun = std::time::Instant::now();
    for _ in 0..1 << 18 {
        assert!(buffer.pop().unwrap().is_some());
        buffer.push(b"\x40\0\0\0");
    }
    assert!(
        begun.elapsed().as_secs() < 60,
        "quadratic, it takes minutes"
    );
    assert_eq!(buffer.waiting(), 1 << 20);
}

#[test]
fn users_of_limited_time() {
    let users = TimeLimitedUsers::new("north");
    let (until, secs) = (UnixTime::from_secs(1_800_000_000), UnixTime::from_secs);
    let alice = users.credentials("alice", until);
    assert_eq!(alice.username(), "1800000000:alice");
    // python3: base64.b64encode(hmac.new(b"north", b"1800000000:alice", "sha1").digest())
    assert_eq!(alice.password(), "sIm7pn/teO7y3AyXGeXl/xAQR6Q=");
    let name = ByName(alice.username());
    assert_eq!(users.find(name, secs(1_799_999_999)), Some(alice.clone()));
    assert_eq!(users.find(name, until), None);
    assert_eq!(users.find(ByHash([7; 32]), secs(0)), None);
    let other = TimeLimitedUsers::new("south").find(name, secs(0)).unwrap();
    assert_ne!(other.password(), alice.password());
    for (name, expiry, user) in [
        ("1800000000", Some(until), "1800000000"),
        ("1800000000:a:b", Some(until), "a:b"),
        ("1:", Some(secs(1)), ""),
        ("+1:alice", None, "alice"),
        (":alice", None, "alice"),
        ("", None, ""),
        ("alice", None, "alice"),
        ("99999999999999999999:alice", None, "alice"),
    ] {
        assert_eq!(TimeLimitedUsers::expiry_in(name), expiry, "{name}");
        assert_eq!(TimeLimitedUsers::user_in(name), user);
        assert_eq!(
            users.find(ByName(name), secs(0)).is_some(),
            expiry.is_some()
        );
    }
    assert_eq!(format!("{users:?}"), "TimeLimitedUsers { .. }");
}
