// A stand-in for the crate `bytesize`: a number of bytes that can be printed.

pub struct ByteSize(pub u64);

impl ByteSize {
    pub fn to_string_as(&self, _binary_units: bool) -> String {
        self.to_string()
    }
}

impl std::fmt::Display for ByteSize {
    fn fmt(&self, out: &mut std::fmt::Formatter) -> std::fmt::Result {
        write!(out, "{} B", self.0)
    }
}
