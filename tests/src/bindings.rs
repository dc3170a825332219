//! Answers of the C interface, made of what the methods of the bindings return.
//! Each folder has its calls in a file of the same name.
use grelfint::raw::LengthAnswer;
use grelfint::Refusal;

/// 0, or the number of the refusal.
pub fn refusal_of(result: Result<(), Refusal>) -> u8 {
    result.map_or_else(u8::from, |()| 0)
}

/// The answer of a call that writes the front of a buffer, which starts here.
pub fn written(result: Result<&[u8], Refusal>, buffer: *const u8) -> LengthAnswer {
    match result {
        Ok(bytes) => {
            assert_eq!(bytes.as_ptr(), buffer, "not the front of the buffer");
            LengthAnswer { refusal: 0, length: bytes.len() }
        }
        Err(refusal) => LengthAnswer { refusal: refusal.into(), length: 0 },
    }
}
