# Makes a scratch repository with the model and the samples in a temporary folder, and goes there.
# Sets `harness` to the program, built. RAVEN_SRC may name the folder of the Rust (see build.rs).
root=$(cd "$(dirname "${BASH_SOURCE[0]}")/.." && pwd -P)
cargo build --quiet --release --manifest-path "$root/harness/Cargo.toml"
harness=$root/harness/target/release/harness
scratch=$(mktemp -d)
trap 'rm -rf "$scratch"' EXIT
mkdir -p "$scratch/crates"
for crate in laws capability model samples; do
    mkdir "$scratch/crates/$crate"
    for part in src specs proofs; do
        [ ! -d "$root/crates/$crate/$part" ] || cp -R "$root/crates/$crate/$part" "$scratch/crates/$crate/$part"
    done
done
grep -E '^(laws|capability|model|samples):' "$root/crates.txt" >"$scratch/crates.txt"
cd "$scratch"
