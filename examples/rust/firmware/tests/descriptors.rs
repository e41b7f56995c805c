//! What a host would reject, found on the developer's machine: `cargo test`.
use mouse::{DEVICE, SET};

/// Each rule of chapter 9 that these bytes break, a line each, with the place of the descriptor that breaks it. Bytes that are no
/// descriptors are an error with its place.
fn findings(bytes: &[u8]) -> Result<String, String> {
    let found = nozzlegorse::check(bytes).map_err(|fault| fault.to_string())?;
    Ok(found.iter().map(|it| format!("{it}\n")).collect())
}

#[test]
fn the_set_breaks_no_rule() -> Result<(), nozzlegorse::Fault> {
    assert!(nozzlegorse::check(&SET)?.is_empty());
    Ok(())
}

#[test]
fn the_device_with_its_set_breaks_no_rule() {
    assert_eq!(findings(&[&DEVICE[..], &SET[..]].concat()), Ok(String::new()));
}

#[test]
fn the_mouse_is_polled_at_endpoint_1() {
    let mut settings = nozzlegorse::configurations(&SET).flat_map(|it| it.settings());
    let mouse = settings.find(|it| it.codes() == (3, 1, 2)).expect("a boot mouse");
    let addresses: Vec<u8> = mouse.endpoints().map(|it| it.address()).collect();
    assert_eq!(addresses, [0x81]);
}

#[test]
fn what_is_wrong_is_said() {
    let mut broken = SET;
    broken[13] = 2; // bNumEndpoints
    assert_eq!(findings(&broken).unwrap(), "at 9: V5: bNumEndpoints is 2, and the setting has 1 endpoint\n");
    broken[2] = 35; // wTotalLength: a byte more than there is
    assert_eq!(findings(&broken).unwrap_err(), "set fault 9 (Truncated) at 34: the bytes end before the set does");
}
