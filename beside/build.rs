//! Writes the file that gives apicula's published modules their places in this crate. The modules are compiled from where they lie.

use std::env;
use std::fs;
use std::path::{Path, PathBuf};

/// Where the published source is unless APICULA_SRC says otherwise, from this package's directory.
const DEFAULT_SRC: &str = "../../shared/docs/src";

/// The published files, below `src/`.
const FILES: [&str; 11] = [
    "errors.rs",
    "util/bits.rs",
    "util/view.rs",
    "util/cur.rs",
    "util/fields.rs",
    "nds/texture_params.rs",
    "nds/texture_formats.rs",
    "nds/decode_texture.rs",
    "nitro/name.rs",
    "nitro/info_block.rs",
    "nitro/tex.rs",
];

fn main() {
    println!("cargo:rerun-if-env-changed=APICULA_SRC");
    let package = PathBuf::from(env::var_os("CARGO_MANIFEST_DIR").unwrap());
    let given = env::var_os("APICULA_SRC").map_or(PathBuf::from(DEFAULT_SRC), PathBuf::from);
    let src = package.join(given).join("src");
    for file in FILES {
        expect_file(&src.join(file));
    }
    let out = PathBuf::from(env::var_os("OUT_DIR").unwrap()).join("published.rs");
    fs::write(out, modules(&src)).unwrap();
}

fn expect_file(path: &Path) {
    println!("cargo:rerun-if-changed={}", path.display());
    if !path.is_file() {
        eprintln!("apicula's source is not there: {}", path.display());
        eprintln!("set APICULA_SRC to the directory that holds src/errors.rs, src/util, src/nds and src/nitro");
        std::process::exit(1);
    }
}

/// The module tree that the published files expect around them. Their warnings are not ours to act on.
fn modules(src: &Path) -> String {
    let at = |file: &str| format!("#[path = {:?}]", src.join(file));
    format!(
        "#[allow(warnings, clippy::all)] #[macro_use] {errors} pub mod errors;
#[allow(warnings, clippy::all)] #[macro_use] pub mod util {{
    {bits} pub mod bits;
    {view} pub mod view;
    {cur} pub mod cur;
    #[macro_use] {fields} pub mod fields;
}}
#[allow(warnings, clippy::all)] pub mod nds {{
    {params} mod texture_params;
    {formats} mod texture_formats;
    {decode} mod decode_texture;
    pub use self::texture_params::TextureParams;
    pub use self::texture_formats::{{Alpha, TextureFormat}};
    pub use self::decode_texture::decode_texture;
}}
#[allow(warnings, clippy::all)] pub mod nitro {{
    {name} pub mod name;
    {info_block} pub mod info_block;
    {tex} pub mod tex;
    pub use self::name::Name;
    pub use self::tex::{{Palette, Texture}};
}}
",
        errors = at("errors.rs"),
        bits = at("util/bits.rs"),
        view = at("util/view.rs"),
        cur = at("util/cur.rs"),
        fields = at("util/fields.rs"),
        params = at("nds/texture_params.rs"),
        formats = at("nds/texture_formats.rs"),
        decode = at("nds/decode_texture.rs"),
        name = at("nitro/name.rs"),
        info_block = at("nitro/info_block.rs"),
        tex = at("nitro/tex.rs"),
    )
}
