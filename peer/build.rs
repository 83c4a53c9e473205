//! Links the benchmark with the library's archive, whose path is in TICKETMOSS_ARCHIVE.
fn main() {
    println!("cargo:rerun-if-env-changed=TICKETMOSS_ARCHIVE");
    if std::env::var_os("CARGO_FEATURE_LINKED").is_some() {
        let archive = std::env::var("TICKETMOSS_ARCHIVE")
            .expect("the script peer/bench sets TICKETMOSS_ARCHIVE");
        println!("cargo:rerun-if-changed={archive}");
        println!("cargo:rustc-link-arg-bin=bench={archive}");
    }
}
