//! What the targets need of libfuzzer-sys: the macro. The quick check `fuzz` links clang's libFuzzer, which calls what it makes.

/// The function that libFuzzer calls with each input.
#[macro_export]
macro_rules! fuzz_target {
    (|$data:ident: &[u8]| $body:block) => {
        /// Called by libFuzzer.
        ///
        /// # Safety
        ///
        /// There are so many bytes, which stay for the call.
        #[unsafe(no_mangle)]
        pub unsafe extern "C" fn LLVMFuzzerTestOneInput(bytes: *const u8, length: usize) -> i32 {
            // SAFETY: libFuzzer gives so many bytes; of none the pointer may be null.
            let $data: &[u8] = if length == 0 {
                &[]
            } else {
                unsafe { std::slice::from_raw_parts(bytes, length) }
            };
            let run = || $body;
            run();
            0
        }
    };
}
