use crate::digest::Digest;

fn digest(bytes: &[u8]) -> String {
    let mut digest = Digest::new();
    digest.add(bytes);
    digest.to_string()
}

/// The values that its authors publish (draft-eastlake-fnv).
#[test]
fn published_values() {
    assert_eq!(digest(b""), "cbf29ce484222325");
    assert_eq!(digest(b"a"), "af63dc4c8601ec8c");
    assert_eq!(digest(b"foobar"), "85944171f73967e8");
}

#[test]
fn bytes_in_two_parts_are_the_bytes_in_one() {
    let mut parts = Digest::new();
    parts.add(b"foo");
    parts.add(b"bar");
    assert_eq!(parts.to_string(), digest(b"foobar"));
}
