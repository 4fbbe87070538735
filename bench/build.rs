// Links the proved library, which `rt lib` writes in crates/speed, and the C part of the kit that it stands on.
use std::path::Path;
use std::process::Command;

fn main() {
    let repository = Path::new(env!("CARGO_MANIFEST_DIR")).parent().expect("the repository");
    let library = repository.join("crates/speed/out");
    println!("cargo:rustc-link-search=native={}", library.display());
    println!("cargo:rustc-link-lib=static=speed");
    println!("cargo:rerun-if-changed={}", library.join("libspeed.a").display());
    // `rt doc` prints the path of a page in the kit's folder.
    let doc = Command::new("rt").arg("doc").output().expect("rt doc");
    let doc = String::from_utf8(doc.stdout).expect("a path");
    let kit = Path::new(doc.trim()).parent().expect("the kit");
    println!("cargo:rustc-link-search=native={}", kit.join("c").display());
    println!("cargo:rustc-link-lib=static=os_c");
    println!("cargo:rustc-link-lib=static=libc_c");
}
