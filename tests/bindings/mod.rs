//! The proved code for Rust: the calls that a board links (`vikombare`), those that tests link besides (`probe`), and the answers of both
//! implementations in one form.

/// A struct of the C interface. `layout` prints where its fields are, by their names in C: what stands after `as`, or the field's own.
macro_rules! c_struct {
    ($(#[$about:meta])* $name:ident { $($(#[$about_field:meta])* $field:ident $(as $($alias:ident)+)?: $type:ty,)* }) => {
        $(#[$about])*
        #[repr(C)]
        #[derive(Clone, Copy, Debug, Default, PartialEq)]
        pub struct $name { $($(#[$about_field])* pub $field: $type,)* }

        impl $name {
            pub fn layout(name: &str) {
                println!("{name} of {} bytes", size_of::<$name>());
                $(for field in c_struct!(@names $field $($($alias)+)?) {
                    println!("  {field} at {}, {} bytes", std::mem::offset_of!($name, $field), size_of::<$type>());
                })*
            }
        }
    };
    (@names $field:ident) => { [stringify!($field)] };
    (@names $field:ident $($alias:ident)+) => { [$(stringify!($alias)),+] };
}

pub mod answers;
pub mod inserter;
pub mod probe;
pub mod slave;
pub mod vikombare;
