//! Every call of the archive that lends a part goes through src/edges.rs: the linker turns a call of
//! NAME into one of __wrap_NAME, and __real_NAME is the archive's function. A function of the header
//! that is missing there does not link.

fn main() {
    let header = "../include/fetulombo.h";
    println!("cargo:rerun-if-changed={header}");
    let text = std::fs::read_to_string(header).expect("the archive's header");
    for declaration in text.split(';') {
        // "fetulombo_number fetulombo_trimmed(const uint8_t *name, size_t name_length)"
        let Some((before, after)) = declaration.rsplit_once('(') else {
            continue;
        };
        let name = before.rsplit(|c: char| c.is_whitespace()).next();
        if let Some(name) =
            name.filter(|name| name.starts_with("fetulombo_") && after.contains('*'))
        {
            println!("cargo:rustc-link-arg-bins=-Wl,--wrap={name}");
        }
    }
}
