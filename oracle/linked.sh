# Sourced by oracle/compare and oracle/fuzz, in this folder: where the Rust and our reader are.
# LIBMAPS may name the archive of our reader; without it, the archive is made here.
[ -f target/ion-rust ] || ./setup
ION_RUST=$(cat target/ion-rust)
if [ -z "${LIBMAPS:-}" ]; then
    (cd .. && ./archive)
    LIBMAPS=$(cd .. && pwd)/target/libion_map.a
fi
export ION_RUST LIBMAPS
