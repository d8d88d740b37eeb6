# To be read by a script of sh that calls cargo: cargo may stand outside the search path, where its
# installer puts it, and HOME may be another's.
if ! cargo --version >/dev/null 2>&1; then
    for home in "${HOME:-}" "$(getent passwd "$(id -u)" | cut -d: -f6)"; do
        [ -x "$home/.cargo/bin/cargo" ] || continue
        PATH=$PATH:$home/.cargo/bin
        CARGO_HOME=${CARGO_HOME:-$home/.cargo}
        RUSTUP_HOME=${RUSTUP_HOME:-$home/.rustup}
        export PATH CARGO_HOME RUSTUP_HOME
        break
    done
fi
