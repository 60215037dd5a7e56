//! Links the static library of the proved decoder's calls, whose folder PLAIN_BENCH_LIB names.

fn main() {
    println!("cargo::rerun-if-env-changed=PLAIN_BENCH_LIB");
    let folder = std::env::var("PLAIN_BENCH_LIB")
        .expect("PLAIN_BENCH_LIB names the folder of libproved_calls.a");
    println!("cargo::rerun-if-changed={folder}/libproved_calls.a");
    println!("cargo::rustc-link-search=native={folder}");
    println!("cargo::rustc-link-lib=static=proved_calls");
}
