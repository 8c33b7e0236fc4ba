//! nix's `errno`: the errors of Linux on x86-64, as numbers with names and texts.
//!
//! A simulated call answers its error and never sets errno itself, so what sets it ends the test.

use crate::sys::not_simulated;
use std::ffi::c_void;
use std::{error, fmt, io};

macro_rules! errno_table {
    ($($number:literal $name:ident $text:literal;)*) => {
        /// An error of a call, by errno(3).
        #[derive(Clone, Copy, Debug, Eq, PartialEq, Hash)]
        #[repr(i32)]
        #[non_exhaustive]
        pub enum Errno {
            /// A number that is no errno, also 0.
            UnknownErrno = 0,
            $(#[doc = $text] $name = $number,)*
        }

        impl Errno {
            /// The error with a number, `UnknownErrno` where there is none.
            pub const fn from_raw(err: i32) -> Errno {
                match err {
                    $($number => Errno::$name,)*
                    _ => Errno::UnknownErrno,
                }
            }

            /// What strerror(3) says, in nix's words.
            pub fn desc(self) -> &'static str {
                match self {
                    Errno::UnknownErrno => "Unknown errno",
                    $(Errno::$name => $text,)*
                }
            }
        }
    };
}

errno_table! {
    1 EPERM "Operation not permitted";
    2 ENOENT "No such file or directory";
    3 ESRCH "No such process";
    4 EINTR "Interrupted system call";
    5 EIO "I/O error";
    6 ENXIO "No such device or address";
    7 E2BIG "Argument list too long";
    8 ENOEXEC "Exec format error";
    9 EBADF "Bad file number";
    10 ECHILD "No child processes";
    11 EAGAIN "Try again";
    12 ENOMEM "Out of memory";
    13 EACCES "Permission denied";
    14 EFAULT "Bad address";
    15 ENOTBLK "Block device required";
    16 EBUSY "Device or resource busy";
    17 EEXIST "File exists";
    18 EXDEV "Cross-device link";
    19 ENODEV "No such device";
    20 ENOTDIR "Not a directory";
    21 EISDIR "Is a directory";
    22 EINVAL "Invalid argument";
    23 ENFILE "File table overflow";
    24 EMFILE "Too many open files";
    25 ENOTTY "Not a typewriter";
    26 ETXTBSY "Text file busy";
    27 EFBIG "File too large";
    28 ENOSPC "No space left on device";
    29 ESPIPE "Illegal seek";
    30 EROFS "Read-only file system";
    31 EMLINK "Too many links";
    32 EPIPE "Broken pipe";
    33 EDOM "Math argument out of domain of func";
    34 ERANGE "Math result not representable";
    35 EDEADLK "Resource deadlock would occur";
    36 ENAMETOOLONG "File name too long";
    37 ENOLCK "No record locks available";
    38 ENOSYS "Function not implemented";
    39 ENOTEMPTY "Directory not empty";
    40 ELOOP "Too many symbolic links encountered";
    42 ENOMSG "No message of desired type";
    43 EIDRM "Identifier removed";
    44 ECHRNG "Channel number out of range";
    45 EL2NSYNC "Level 2 not synchronized";
    46 EL3HLT "Level 3 halted";
    47 EL3RST "Level 3 reset";
    48 ELNRNG "Link number out of range";
    49 EUNATCH "Protocol driver not attached";
    50 ENOCSI "No CSI structure available";
    51 EL2HLT "Level 2 halted";
    52 EBADE "Invalid exchange";
    53 EBADR "Invalid request descriptor";
    54 EXFULL "Exchange full";
    55 ENOANO "No anode";
    56 EBADRQC "Invalid request code";
    57 EBADSLT "Invalid slot";
    59 EBFONT "Bad font file format";
    60 ENOSTR "Device not a stream";
    61 ENODATA "No data available";
    62 ETIME "Timer expired";
    63 ENOSR "Out of streams resources";
    64 ENONET "Machine is not on the network";
    65 ENOPKG "Package not installed";
    66 EREMOTE "Object is remote";
    67 ENOLINK "Link has been severed";
    68 EADV "Advertise error";
    69 ESRMNT "Srmount error";
    70 ECOMM "Communication error on send";
    71 EPROTO "Protocol error";
    72 EMULTIHOP "Multihop attempted";
    73 EDOTDOT "RFS specific error";
    74 EBADMSG "Not a data message";
    75 EOVERFLOW "Value too large for defined data type";
    76 ENOTUNIQ "Name not unique on network";
    77 EBADFD "File descriptor in bad state";
    78 EREMCHG "Remote address changed";
    79 ELIBACC "Can not access a needed shared library";
    80 ELIBBAD "Accessing a corrupted shared library";
    81 ELIBSCN ".lib section in a.out corrupted";
    82 ELIBMAX "Attempting to link in too many shared libraries";
    83 ELIBEXEC "Cannot exec a shared library directly";
    84 EILSEQ "Illegal byte sequence";
    85 ERESTART "Interrupted system call should be restarted";
    86 ESTRPIPE "Streams pipe error";
    87 EUSERS "Too many users";
    88 ENOTSOCK "Socket operation on non-socket";
    89 EDESTADDRREQ "Destination address required";
    90 EMSGSIZE "Message too long";
    91 EPROTOTYPE "Protocol wrong type for socket";
    92 ENOPROTOOPT "Protocol not available";
    93 EPROTONOSUPPORT "Protocol not supported";
    94 ESOCKTNOSUPPORT "Socket type not supported";
    95 EOPNOTSUPP "Operation not supported on transport endpoint";
    96 EPFNOSUPPORT "Protocol family not supported";
    97 EAFNOSUPPORT "Address family not supported by protocol";
    98 EADDRINUSE "Address already in use";
    99 EADDRNOTAVAIL "Cannot assign requested address";
    100 ENETDOWN "Network is down";
    101 ENETUNREACH "Network is unreachable";
    102 ENETRESET "Network dropped connection because of reset";
    103 ECONNABORTED "Software caused connection abort";
    104 ECONNRESET "Connection reset by peer";
    105 ENOBUFS "No buffer space available";
    106 EISCONN "Transport endpoint is already connected";
    107 ENOTCONN "Transport endpoint is not connected";
    108 ESHUTDOWN "Cannot send after transport endpoint shutdown";
    109 ETOOMANYREFS "Too many references: cannot splice";
    110 ETIMEDOUT "Connection timed out";
    111 ECONNREFUSED "Connection refused";
    112 EHOSTDOWN "Host is down";
    113 EHOSTUNREACH "No route to host";
    114 EALREADY "Operation already in progress";
    115 EINPROGRESS "Operation now in progress";
    116 ESTALE "Stale file handle";
    117 EUCLEAN "Structure needs cleaning";
    118 ENOTNAM "Not a XENIX named type file";
    119 ENAVAIL "No XENIX semaphores available";
    120 EISNAM "Is a named type file";
    121 EREMOTEIO "Remote I/O error";
    122 EDQUOT "Quota exceeded";
    123 ENOMEDIUM "No medium found";
    124 EMEDIUMTYPE "Wrong medium type";
    125 ECANCELED "Operation canceled";
    126 ENOKEY "Required key not available";
    127 EKEYEXPIRED "Key has expired";
    128 EKEYREVOKED "Key has been revoked";
    129 EKEYREJECTED "Key was rejected by service";
    130 EOWNERDEAD "Owner died";
    131 ENOTRECOVERABLE "State not recoverable";
    132 ERFKILL "Operation not possible due to RF-kill";
    133 EHWPOISON "Memory page has hardware error";
}

impl Errno {
    /// The other name of `EAGAIN`.
    pub const EWOULDBLOCK: Errno = Errno::EAGAIN;
    /// The other name of `EDEADLK`.
    pub const EDEADLOCK: Errno = Errno::EDEADLK;
    /// The other name of `EOPNOTSUPP`.
    pub const ENOTSUP: Errno = Errno::EOPNOTSUPP;

    /// The name of `from_raw` before nix 0.28.
    pub const fn from_i32(err: i32) -> Errno {
        Errno::from_raw(err)
    }

    /// The system's errno of this thread, which no simulated call sets.
    pub fn last() -> Errno {
        Errno::from_raw(Errno::last_raw())
    }

    /// The number of `last`.
    pub fn last_raw() -> i32 {
        io::Error::last_os_error().raw_os_error().unwrap_or(0)
    }

    /// Ends the test: errno is not set here.
    pub fn set(self) {
        not_simulated("Errno::set", SETS_NOTHING)
    }

    /// Ends the test: errno is not set here.
    pub fn set_raw(_errno: i32) {
        not_simulated("Errno::set_raw", SETS_NOTHING)
    }

    /// Ends the test: errno is not set here.
    pub fn clear() {
        not_simulated("Errno::clear", SETS_NOTHING)
    }

    /// The value, or the system's errno where it is the sentinel of a failed call.
    pub fn result<S: ErrnoSentinel + PartialEq<S>>(value: S) -> Result<S, Errno> {
        if value == S::sentinel() { Err(Errno::last()) } else { Ok(value) }
    }
}

const SETS_NOTHING: &str = "a simulated call answers its error and leaves errno alone";

/// The name of `Errno::last_raw` before nix 0.28.
pub fn errno() -> i32 {
    Errno::last_raw()
}

/// The value by which a call of C says that it failed.
pub trait ErrnoSentinel: Sized {
    /// That value, -1 of most types.
    fn sentinel() -> Self;
}

impl ErrnoSentinel for isize {
    fn sentinel() -> Self {
        -1
    }
}

impl ErrnoSentinel for i32 {
    fn sentinel() -> Self {
        -1
    }
}

impl ErrnoSentinel for i64 {
    fn sentinel() -> Self {
        -1
    }
}

impl ErrnoSentinel for *mut c_void {
    fn sentinel() -> Self {
        std::ptr::without_provenance_mut(usize::MAX)
    }
}

impl ErrnoSentinel for usize {
    fn sentinel() -> Self {
        usize::MAX
    }
}

impl fmt::Display for Errno {
    fn fmt(&self, formatter: &mut fmt::Formatter<'_>) -> fmt::Result {
        write!(formatter, "{self:?}: {}", self.desc())
    }
}

impl error::Error for Errno {}

impl From<Errno> for io::Error {
    fn from(err: Errno) -> io::Error {
        io::Error::from_raw_os_error(err as i32)
    }
}

impl TryFrom<io::Error> for Errno {
    type Error = io::Error;

    fn try_from(err: io::Error) -> Result<Errno, io::Error> {
        err.raw_os_error().map(Errno::from_raw).ok_or(err)
    }
}

#[cfg(test)]
mod tests {
    use super::*;

    #[test]
    fn a_number_has_its_name_and_text() {
        for (number, errno, text) in [
            (3, Errno::ESRCH, "ESRCH: No such process"),
            (10, Errno::ECHILD, "ECHILD: No child processes"),
            (11, Errno::EWOULDBLOCK, "EAGAIN: Try again"),
            (35, Errno::EDEADLOCK, "EDEADLK: Resource deadlock would occur"),
            (133, Errno::EHWPOISON, "EHWPOISON: Memory page has hardware error"),
        ] {
            assert_eq!(Errno::from_raw(number), errno);
            assert_eq!(errno as i32, number);
            assert_eq!(errno.to_string(), text);
        }
        for no_errno in [-1, 0, 41, 58, 134] {
            assert_eq!(Errno::from_raw(no_errno), Errno::UnknownErrno);
        }
    }

    #[test]
    fn an_error_goes_to_std_and_back() {
        let error = io::Error::from(Errno::ESRCH);
        assert_eq!(error.raw_os_error(), Some(3));
        assert_eq!(Errno::try_from(error).ok(), Some(Errno::ESRCH));
        assert!(Errno::try_from(io::Error::other("no number")).is_err());
    }

    #[test]
    fn only_the_sentinel_is_an_error() {
        assert_eq!(Errno::result(7), Ok(7));
        assert!(Errno::result(-1_i32).is_err());
        assert!(Errno::result(std::ptr::without_provenance_mut::<c_void>(usize::MAX)).is_err());
    }
}
