//! The descriptors of a boot mouse, as its firmware sends them.
#![no_std]

/// The device descriptor.
pub const DEVICE: [u8; 18] = [
    18, 1, // bLength, DEVICE
    0x00, 0x02, // bcdUSB 2.00
    0, 0, 0, 64, // class, subclass and protocol of each interface; bMaxPacketSize0
    0x09, 0x12, 0x01, 0x00, // idVendor, idProduct
    0x00, 0x01, // bcdDevice 1.00
    0, 0, 0, // no strings
    1, // bNumConfigurations
];

/// The configuration with all that belongs to it.
pub const SET: [u8; 34] = [
    9, 2, // bLength, CONFIGURATION
    34, 0, // wTotalLength
    1, 1, 0, // bNumInterfaces, bConfigurationValue, iConfiguration
    0xa0, 50, // bus-powered with remote wakeup, 100 mA
    9, 4, // bLength, INTERFACE
    0, 0, 1, // bInterfaceNumber, bAlternateSetting, bNumEndpoints
    3, 1, 2, 0, // HID, boot interface, mouse; iInterface
    9, 0x21, // bLength, HID
    0x11, 0x01, 0, 1, // bcdHID 1.11, bCountryCode, bNumDescriptors
    0x22, 52, 0, // a report descriptor of 52 bytes
    7, 5, // bLength, ENDPOINT
    0x81, 3, // EP 1 IN, interrupt
    4, 0, 10, // wMaxPacketSize, bInterval: 10 frames
];
