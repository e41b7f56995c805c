//! Descriptors by what they belong to: configurations, their interfaces, these at each of their settings.
use crate::descriptor::{descriptors, Descriptor, Endpoint, Role};
use std::{mem, ops::Deref};

macro_rules! descriptors_of_a_kind {
    ($($(#[$words:meta])* $name:ident)*) => {$(
        $(#[$words])*
        #[derive(Clone, Copy, Debug, PartialEq, Eq, Hash)]
        pub struct $name<'a>(Descriptor<'a>);

        impl<'a> Deref for $name<'a> {
            type Target = Descriptor<'a>;

            fn deref(&self) -> &Descriptor<'a> {
                &self.0
            }
        }
    )*};
}

descriptors_of_a_kind! {
    /// A configuration, of the device's own speed or of its other: [`Descriptor::part`] says which.
    Configuration
    /// An interface at one of its settings.
    Setting
}

/// An interface of a configuration, whatever its setting.
#[derive(Clone, Copy, Debug, PartialEq, Eq, Hash)]
pub struct Interface<'a> {
    first: Setting<'a>,
}

/// The configurations of these bytes, in their order; of broken bytes as far as they can be read, which [`judge`] says.
///
/// ```
/// let set = [
///     9, 2, 57, 0, 1, 1, 0, 0x80, 50, // a configuration
///     9, 4, 0, 0, 0, 0xff, 0, 0, 0, // an interface without endpoints,
///     9, 4, 0, 1, 2, 0xff, 0, 0, 0, // and at another setting with two
///     7, 5, 0x81, 2, 64, 0, 0, // bulk IN
///     7, 5, 0x02, 2, 64, 0, 0, // bulk OUT
///     9, 4, 1, 0, 0, 3, 0, 0, 0, // one more
///     7, 0x21, 1, 2, 3, 4, 5, // of its class
/// ];
/// let mut lines = Vec::new();
/// for configuration in nozzlegorse::configurations(&set) {
///     for interface in configuration.interfaces() {
///         for setting in interface.alternates() {
///             let addresses: Vec<u8> = setting.endpoints().map(|it| it.address()).collect();
///             lines.push(format!("{}.{} {addresses:02x?}", interface.number(), setting.alternate()));
///         }
///     }
/// }
/// assert_eq!(lines, ["0.0 []", "0.1 [81, 02]", "1.0 []"]);
///
/// let last = nozzlegorse::configurations(&set).flat_map(|it| it.settings()).last().unwrap();
/// assert_eq!(last.extras().next().unwrap().bytes()[1], 0x21);
/// ```
///
/// [`judge`]: crate::judge
pub fn configurations(bytes: &[u8]) -> impl Iterator<Item = Configuration<'_>> {
    descriptors(bytes).filter(|it| it.role() == Role::Configuration).map(Configuration)
}

impl<'a> Configuration<'a> {
    /// bConfigurationValue.
    pub fn value(&self) -> u8 {
        self.bytes()[5]
    }
    /// Its interfaces, each once, in the order of their first settings.
    pub fn interfaces(&self) -> impl Iterator<Item = Interface<'a>> + 'a {
        let mut seen = [false; 256];
        let is_new = move |it: &Setting<'a>| !mem::replace(&mut seen[usize::from(it.interface())], true);
        self.settings().filter(is_new).map(|first| Interface { first })
    }
    /// Its interfaces at each of their settings, in the order of the bytes.
    pub fn settings(&self) -> impl Iterator<Item = Setting<'a>> + 'a {
        self.contents().filter(|it| it.role() == Role::Interface).map(Setting)
    }
}

impl<'a> Interface<'a> {
    /// bInterfaceNumber.
    pub fn number(&self) -> u8 {
        self.first.interface()
    }
    /// It at each of its settings, in the order of the bytes.
    pub fn alternates(&self) -> impl Iterator<Item = Setting<'a>> + 'a {
        let first = self.first;
        let later = first.later().take_while(Descriptor::is_in_a_set).filter(|it| it.role() == Role::Interface).map(Setting);
        std::iter::once(first).chain(later.filter(move |it| it.interface() == first.interface()))
    }
}

impl<'a> Setting<'a> {
    /// Its endpoints, in the order of the bytes.
    pub fn endpoints(&self) -> impl Iterator<Item = Endpoint<'a>> + 'a {
        self.contents().filter_map(|it| it.endpoint())
    }
}
