//! What both controllers have alike.

/// The buffers of a controller, in the order in which the C functions take them; `Debug` shows their
/// lengths.
macro_rules! buffers {
    ($(#[$about:meta])* $name:ident { $($(#[$about_field:meta])* $field:ident,)* }) => {
        $(#[$about])*
        #[derive(Clone, PartialEq, Eq)]
        pub struct $name {
            $($(#[$about_field])* pub $field: Vec<u8>,)*
        }

        impl std::fmt::Debug for $name {
            fn fmt(&self, f: &mut std::fmt::Formatter<'_>) -> std::fmt::Result {
                f.debug_struct(stringify!($name))
                    $(.field(stringify!($field), &self.$field.len()))*
                    .finish()
            }
        }
    };
}

/// The calls and getters that go the same way in both controllers.
macro_rules! controller {
    ($name:ident, $setup:ident, $buffers:ident, $read:ident, $write:ident, $flags:expr) => {
        impl $name {
            /// Resets the controller with this set-up; afterwards it is as [`Self::new`] gives it.
            ///
            /// # Errors
            ///
            /// [`Refusal::Setup`]; the controller then stays as it was.
            pub fn reset(&mut self, setup: $setup) -> Result<(), Refusal> {
                *self = $name::new(setup)?;
                Ok(())
            }

            /// A controller from saved buffers.
            ///
            /// # Errors
            ///
            /// [`Refusal::Setup`], [`Refusal::Length`], [`Refusal::State`].
            pub fn from_buffers(buffers: $buffers) -> Result<$name, Refusal> {
                let controller = $name { buffers };
                controller.read(8, registers::CAPABILITIES)?;
                Ok(controller)
            }

            /// Record and tables, to be saved (with [`crate::VERSION`]) or looked at.
            #[must_use]
            pub fn buffers(&self) -> &$buffers {
                &self.buffers
            }

            /// The counter of an MCID; `None` if there is no such MCID.
            #[must_use]
            pub fn counter(&self, mcid: u64) -> Option<Counter> {
                Counter::of(&self.buffers.counters, &self.buffers.events, &$flags, mcid)
            }

            /// A driver's read of `size` bytes at `offset`.
            ///
            /// # Errors
            ///
            /// [`Refusal::Size`], [`Refusal::Offset`].
            pub fn read(&self, size: u64, offset: u64) -> Result<u64, Refusal> {
                let mut value = 0;
                ffi::$read(&self.buffers, size, offset, &mut value)?;
                Ok(value)
            }

            /// A driver's write of `size` bytes at `offset`, with the operation that it performs.
            ///
            /// # Errors
            ///
            /// [`Refusal::Size`], [`Refusal::Offset`], [`Refusal::Value`].
            pub fn write(&mut self, size: u64, offset: u64, value: u64) -> Result<(), Refusal> {
                ffi::$write(&mut self.buffers, size, offset, value)
            }

            /// The word of a pair in a table of words of this width.
            fn word_of_pair(&self, table: &[u8], width: usize, rcid: u64, at: u64) -> Option<u64> {
                let $setup { nr, na, .. } = self.setup();
                word(table, pair(nr, na, rcid, at)?, width)
            }
        }
    };
}

pub(crate) use {buffers, controller};
