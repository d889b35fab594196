//! Links the archives that bench/run has made of the proved library, and links them again whenever they are others.

fn main() {
    let archives = std::env::var("BENCH_ARCHIVES").expect("bench/run says where the archives are");
    println!("cargo:rerun-if-env-changed=BENCH_ARCHIVES");
    for archive in archives.split(':') {
        println!("cargo:rerun-if-changed={archive}");
        println!("cargo:rustc-link-arg={archive}");
    }
}
