extern "C" {
    fn proto_main();
}
fn main() {
    unsafe { proto_main() }
}
